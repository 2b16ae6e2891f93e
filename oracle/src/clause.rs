//! A clause: the original's allocator, and how records and events act on it.

use crate::allocator::Allocator;
use crate::codegen::SubsumedBranchHits;
use crate::debray_allocator::DebrayAllocator;
use crate::forms::BranchNumber;
use crate::limits::{COUNTS, FREED_REGISTERS, FREED_SLOTS, OPEN_BRANCHES};
use crate::parser::ast::{RegType, Term, VarPtr, VarReg};
use crate::print::Printed;
use crate::sheet::{Branching, Event, Mark, Record, Subject, Target};
use crate::stop::{self, Stop};
use crate::targets::{CompilationTarget, FactInstruction, QueryInstruction};
use crate::variable_records::{
    PermVarAllocation, TempVarData, VarAlloc, VarSafetyStatus, VariableRecord,
};
use judging::refusal::Refusal;
use std::cell::Cell;

pub(crate) struct Clause {
    allocator: DebrayAllocator,
}

impl Clause {
    pub(crate) fn new() -> Self {
        Clause {
            allocator: DebrayAllocator::new(),
        }
    }

    pub(crate) fn allocator(&self) -> &DebrayAllocator {
        &self.allocator
    }

    pub(crate) fn variables(&self) -> usize {
        self.allocator.var_data.records.len()
    }

    pub(crate) fn add(&mut self, record: Record) {
        self.allocator.var_data.records.push(fresh_record(record));
    }

    /// Carries out an event that keeps to the sizes. The refusals come in the order in
    /// which the original's steps meet them: it finds places first, it stops at what it
    /// records after that, and it fills its tables last.
    pub(crate) fn carry_out(&mut self, event: &Event) -> Result<Printed, Refusal> {
        let mut printed = Printed::nothing();
        let stopped = stop::catch(|| self.step(event, &mut printed));
        printed.test_places()?;
        stopped.map_err(|stop| refusal_for(event, stop))?;
        self.test_tables()?;
        Ok(printed)
    }

    /// Carries out an event and asks nothing.
    pub(crate) fn step(&mut self, event: &Event, printed: &mut Printed) {
        let allocator = &mut self.allocator;
        match *event {
            Event::Sets => allocator.var_data.records.populate_restricting_sets(),
            Event::Head(ref arguments) => allocator.reset_at_head(&head_terms(arguments)),
            Event::Args(count) => allocator.reset_arg(count),
            Event::Mark(ref mark) => match mark.target {
                Target::Fact => self.mark::<FactInstruction>(mark, printed),
                Target::Query => self.mark::<QueryInstruction>(mark, printed),
            },
            Event::Cut { variable, chunk } => {
                printed.set_place(allocator.mark_cut_var(variable, chunk));
            }
            Event::Increment(variable) => allocator.increment_running_count(variable),
            Event::Free { chunk, variable } => allocator.free_var(chunk, variable),
            Event::Safe(variable) => allocator.mark_safe_var_unconditionally(variable),
            Event::Give(register) => allocator.add_reg_to_free_list(RegType::Temp(register)),
            Event::Tail(flag) => allocator.in_tail_position = flag == 1,
            Event::Next => allocator.advance_arg(),
            Event::Branching(ref branching) => self.branch(branching),
            Event::Reset => allocator.reset(),
            Event::Contents => allocator.reset_contents(),
            Event::ClearFree => allocator.reset_free_list(),
        }
    }

    fn mark<Instructions>(&mut self, mark: &Mark, printed: &mut Printed)
    where
        Instructions: for<'a> CompilationTarget<'a>,
    {
        let allocator = &mut self.allocator;
        let &Mark { level, context, .. } = mark;
        let Printed { code, cell } = printed;
        match mark.subject {
            Subject::Variable(variable) => {
                // The original leaves the cell of a bound deep variable alone, so it starts
                // as the place that the variable has.
                cell.set(VarReg::Norm(allocator.get_binding(variable)));
                allocator.mark_var::<Instructions>(variable, level, cell, context, code);
            }
            Subject::Anonymous => {
                let place = allocator.mark_anon_var::<Instructions>(level, context, code);
                printed.set_place(place);
            }
            Subject::NonVariable(register) => {
                let place = Cell::new(RegType::Temp(register));
                allocator.mark_non_var::<Instructions>(level, context, &place, code);
                printed.set_place(place.get());
            }
        }
    }

    fn branch(&mut self, branching: &Branching) {
        let allocator = &mut self.allocator;
        match *branching {
            Branching::Open { start, span, arms } => {
                let branch = BranchNumber::new(start, span);
                allocator.branch_stack.add_branch_stack(branch, arms);
            }
            Branching::Arm { start, span } => {
                let branch = BranchNumber::new(start, span);
                allocator.branch_stack.incr_current_branch(branch);
            }
            Branching::Take => allocator.add_branch(),
            Branching::Close {
                depth,
                ref variables,
            } => {
                let hits: SubsumedBranchHits = variables.iter().copied().collect();
                allocator.pop_branch(depth, hits);
            }
        }
    }

    /// The original's tables grow without end; an entry past a size is refusal 7.
    fn test_tables(&self) -> Result<(), Refusal> {
        let allocator = &self.allocator;
        let records = &allocator.var_data.records;
        let branches = &allocator.branch_stack;
        let fits = allocator.freed_registers().len() <= FREED_REGISTERS
            && allocator.freed_slots().len() <= FREED_SLOTS
            && branches.len() <= OPEN_BRANCHES
            && branches.iter().all(|b| b.current_branch_idx <= COUNTS)
            && records.iter().all(|r| r.running_count <= COUNTS);
        fits.then_some(()).ok_or(Refusal::Full)
    }
}

/// Rule 4.4 of docs/RULES.md lists where the original stops; any other stop is refusal 8.
fn refusal_for(event: &Event, stop: Stop) -> Refusal {
    match (event, stop) {
        (Event::Mark(mark), Stop::Other) if mark.is_of_variable() => Refusal::Stop,
        (Event::Branching(Branching::Take), Stop::Other)
        | (Event::Branching(Branching::Arm { .. } | Branching::Close { .. }), _)
        | (Event::Safe(_), _) => Refusal::Stop,
        _ => Refusal::Unreachable,
    }
}

fn fresh_record(record: Record) -> VariableRecord {
    let (allocation, num_occurrences) = match record {
        Record::Temporary {
            context,
            occurrences,
            uses,
        } => {
            let mut temp_var_data = TempVarData::new();
            temp_var_data.use_set.extend(uses);
            let allocation = VarAlloc::Temp {
                term_loc: context,
                temp_reg: 0,
                temp_var_data,
                safety: VarSafetyStatus::Needed,
                to_perm_var_num: None,
            };
            (allocation, occurrences)
        }
        Record::Permanent { occurrences } => {
            let allocation = VarAlloc::Perm(0, PermVarAllocation::Pending);
            (allocation, occurrences)
        }
    };
    VariableRecord {
        allocation,
        num_occurrences,
        running_count: 0,
    }
}

fn head_terms(arguments: &[Option<usize>]) -> Vec<Term> {
    let term = |argument: &Option<usize>| match *argument {
        Some(variable) => Term::Var((), VarPtr(variable)),
        None => Term::AnonVar,
    };
    arguments.iter().map(term).collect()
}
