//! Stand-ins for what the original's files name outside themselves.
//!
//! Names and shapes are the original's; each module holds only what those files touch. What
//! they name but never reach from a mark (atoms, literals, iterators) is left empty.

/// Branches, contexts and levels, after rules 5.3, 5.4, 6.6 of docs/RULES.md.
pub(crate) mod forms {
    use super::num_order::NumOrd;

    #[derive(Debug, Clone, Copy, PartialEq, Eq)]
    pub enum Level {
        Deep,
        Root,
        Shallow,
    }

    #[derive(Debug, Clone, Copy, PartialEq, Eq, Hash)]
    pub enum GenContext {
        Head,
        Mid(usize),
        Last(usize),
    }

    impl GenContext {
        pub fn chunk_num(&self) -> usize {
            match *self {
                GenContext::Head => 0,
                GenContext::Mid(chunk) | GenContext::Last(chunk) => chunk,
            }
        }
    }

    pub enum RootIterationPolicy {
        NotIterated,
    }

    /// Starts and spans are below 2^32, so whole numbers of 64 bits add without wrapping.
    #[derive(Debug, Clone, Copy, Default, PartialEq, Eq, PartialOrd, Ord)]
    pub(crate) struct Rational(pub(crate) u64);

    impl Rational {
        pub(crate) fn is_zero(self) -> bool {
            self.0 == 0
        }
    }

    impl NumOrd<u64> for Rational {
        fn num_gt(&self, other: &u64) -> bool {
            self.0 > *other
        }
    }

    #[derive(Debug, Clone, Default, PartialEq, Eq)]
    pub(crate) struct BranchNumber(pub(crate) BranchNumberInner);

    /// A branch is a start (`branch_num`) and a span (`delta`). The default's span never
    /// matters: a branch that starts at 0 counts as global.
    #[derive(Debug, Clone, Default, PartialEq, Eq)]
    pub(crate) struct BranchNumberInner {
        pub(crate) branch_num: Rational,
        pub(crate) delta: Rational,
    }

    impl BranchNumber {
        pub(crate) fn new(start: usize, span: usize) -> Self {
            BranchNumber(BranchNumberInner {
                branch_num: Rational(start as u64),
                delta: Rational(span as u64),
            })
        }

        /// The start and the span.
        pub(crate) fn interval(&self) -> (u64, u64) {
            (self.0.branch_num.0, self.0.delta.0)
        }

        /// The test of rule 6.6. The original also asks that the inner span be at most the
        /// outer one; there the rule decides.
        pub(crate) fn has_as_subbranch(&self, other: &Self) -> bool {
            let (outer, span) = self.interval();
            let (inner, _) = other.interval();
            outer <= inner && inner < outer + span
        }
    }
}

pub(crate) mod parser {
    pub(crate) mod ast {
        #[derive(Debug, Clone, Copy, PartialEq, Eq)]
        pub enum RegType {
            Perm(usize),
            Temp(usize),
        }

        impl RegType {
            pub fn reg_num(self) -> usize {
                match self {
                    RegType::Perm(number) | RegType::Temp(number) => number,
                }
            }

            pub fn is_perm(self) -> bool {
                matches!(self, RegType::Perm(_))
            }
        }

        #[derive(Debug, Clone, Copy)]
        pub enum VarReg {
            #[expect(dead_code, reason = "the argument's number is written, never read")]
            ArgAndNorm(RegType, usize),
            Norm(RegType),
        }

        impl VarReg {
            pub fn norm(self) -> RegType {
                match self {
                    VarReg::ArgAndNorm(place, _) | VarReg::Norm(place) => place,
                }
            }
        }

        pub struct VarPtr(pub usize);

        impl VarPtr {
            pub(crate) fn to_var_num(&self) -> Option<usize> {
                Some(self.0)
            }
        }

        /// The head's arguments: only variables differ from the rest.
        pub enum Term {
            AnonVar,
            Var((), VarPtr),
        }

        pub struct Literal;
    }
}

pub(crate) mod instructions {
    use super::atom_table::Atom;
    use super::forms::Level;
    use super::parser::ast::RegType;
    use super::types::HeapCellValue;
    use std::collections::VecDeque;
    use std::rc::Rc;

    pub type CodeDeque = VecDeque<Instruction>;

    #[derive(Debug)]
    #[expect(dead_code, reason = "only variables and moves are ever made and read")]
    pub enum Instruction {
        GetConstant(Level, HeapCellValue, RegType),
        GetList(Level, RegType),
        GetPartialString(Level, Rc<String>, RegType),
        GetStructure(Level, Atom, usize, RegType),
        GetValue(RegType, usize),
        GetVariable(RegType, usize),
        PutConstant(Level, HeapCellValue, RegType),
        PutList(Level, RegType),
        PutPartialString(Level, Rc<String>, RegType),
        PutStructure(Atom, usize, RegType),
        PutUnsafeValue(usize, usize),
        PutValue(RegType, usize),
        PutVariable(RegType, usize),
        SetConstant(HeapCellValue),
        SetLocalValue(RegType),
        SetValue(RegType),
        SetVariable(RegType),
        SetVoid(usize),
        UnifyConstant(HeapCellValue),
        UnifyLocalValue(RegType),
        UnifyValue(RegType),
        UnifyVariable(RegType),
        UnifyVoid(usize),
    }
}

pub(crate) mod machine {
    pub(crate) mod disjuncts {
        use crate::variable_records::VariableRecords;

        #[derive(Debug, Default)]
        pub struct VarData {
            pub records: VariableRecords,
        }
    }
}

pub(crate) mod codegen {
    use fxhash::FxBuildHasher;
    use indexmap::IndexSet;

    pub type SubsumedBranchHits = IndexSet<usize, FxBuildHasher>;
}

pub(crate) mod iterators {
    use super::forms::RootIterationPolicy;
    use super::parser::ast::Term;
    use std::iter::{Empty, empty};

    pub type TermRef<'a> = &'a Term;
    pub type FactIterator<'a> = Empty<TermRef<'a>>;
    pub type QueryIterator<'a> = Empty<TermRef<'a>>;

    pub fn breadth_first_iter(_: &Term, _: RootIterationPolicy) -> FactIterator<'_> {
        empty()
    }

    pub fn post_order_iter(_: &Term) -> QueryIterator<'_> {
        empty()
    }
}

pub(crate) mod atom_table {
    #[derive(Debug)]
    pub struct Atom;
}

pub(crate) mod types {
    use super::parser::ast::Literal;

    #[derive(Debug)]
    pub struct HeapCellValue;

    impl From<Literal> for HeapCellValue {
        fn from(_: Literal) -> Self {
            HeapCellValue
        }
    }
}

/// For the crate `bitvec`: a row of bits that, like it, stops at an index past its end.
pub(crate) mod bitvec {
    pub(crate) mod prelude {
        #[derive(Debug)]
        pub struct BitVec(Vec<bool>);

        impl BitVec {
            pub fn repeat(bit: bool, length: usize) -> Self {
                BitVec(vec![bit; length])
            }

            pub fn set(&mut self, index: usize, bit: bool) {
                self.0[index] = bit;
            }
        }
    }
}

/// For the crate `num_order`.
pub(crate) mod num_order {
    pub trait NumOrd<Other> {
        fn num_gt(&self, other: &Other) -> bool;
    }
}
