//! A clause's whole state as text, one thing to a line, in the form that README.md gives.

use crate::clause::Clause;
use crate::debray_allocator::BranchOccurrences;
use crate::forms::GenContext;
use crate::variable_records::{
    PermVarAllocation, TempVarData, VarAlloc, VarSafetyStatus, VariableRecord,
};
use std::fmt::{self, Display, Formatter};

/// Stands for an empty list and for what is not there.
const NOTHING: &str = "-";

impl Display for Clause {
    fn fmt(&self, formatter: &mut Formatter<'_>) -> fmt::Result {
        let allocator = self.allocator();
        for (variable, record) in allocator.var_data.records.iter().enumerate() {
            writeln!(formatter, "{}", record_line(variable, record))?;
        }
        for (name, counter) in allocator.counters() {
            writeln!(formatter, "{name}\t{counter}")?;
        }
        writeln!(formatter, "tail\t{}", u8::from(allocator.in_tail_position))?;
        for (register, variable) in allocator.mappings() {
            writeln!(formatter, "mapping\t{register}\t{variable}")?;
        }
        writeln!(formatter, "in_use\t{}", list(allocator.in_use()))?;
        let freed_registers = list(allocator.freed_registers());
        writeln!(formatter, "freed_registers\t{freed_registers}")?;
        let freed_slots = allocator.freed_slots().iter().map(pair);
        writeln!(formatter, "freed_slots\t{}", list(freed_slots))?;
        for branch in allocator.branch_stack.iter() {
            writeln!(formatter, "{}", branch_line(branch))?;
        }
        Ok(())
    }
}

impl Display for GenContext {
    fn fmt(&self, formatter: &mut Formatter<'_>) -> fmt::Result {
        match self {
            GenContext::Head => formatter.write_str("h"),
            GenContext::Mid(chunk) => write!(formatter, "m{chunk}"),
            GenContext::Last(chunk) => write!(formatter, "l{chunk}"),
        }
    }
}

impl Display for VarSafetyStatus {
    fn fmt(&self, formatter: &mut Formatter<'_>) -> fmt::Result {
        match self {
            VarSafetyStatus::Needed => formatter.write_str("needed"),
            VarSafetyStatus::GloballyUnneeded => formatter.write_str("global"),
            VarSafetyStatus::LocallyUnneeded(branch) => {
                let (start, span) = branch.branch_num.interval();
                write!(formatter, "local:{start}:{span}")
            }
        }
    }
}

fn record_line(variable: usize, record: &VariableRecord) -> String {
    let occurrences = record.num_occurrences;
    let running_count = record.running_count;
    match &record.allocation {
        VarAlloc::Temp {
            term_loc,
            temp_reg,
            temp_var_data,
            safety,
            to_perm_var_num,
        } => {
            let to_permanent = list(to_perm_var_num);
            let sets = sets_fields(temp_var_data);
            format!(
                "temp\t{variable}\t{term_loc}\t{temp_reg}\t{safety}\t{to_permanent}\t\
                 {occurrences}\t{running_count}\t{sets}"
            )
        }
        VarAlloc::Perm(slot, allocation) => {
            let safeties = safety_fields(allocation);
            format!("perm\t{variable}\t{slot}\t{safeties}\t{occurrences}\t{running_count}")
        }
    }
}

fn sets_fields(data: &TempVarData) -> String {
    let uses = list(data.use_set.iter().map(pair));
    let no_use = list(&data.no_use_set);
    let conflict = list(&data.conflict_set);
    format!("{uses}\t{no_use}\t{conflict}")
}

fn safety_fields(allocation: &PermVarAllocation) -> String {
    match allocation {
        PermVarAllocation::Done {
            shallow_safety,
            deep_safety,
        } => format!("done\t{shallow_safety}\t{deep_safety}"),
        PermVarAllocation::Pending => format!("pending\t{NOTHING}\t{NOTHING}"),
    }
}

fn branch_line(branch: &BranchOccurrences) -> String {
    let (start, span) = branch.current_branch_num.interval();
    let arms = branch.num_branches;
    let index = branch.current_branch_idx;
    let shallow = list(&branch.shallow_safety);
    let deep = list(&branch.deep_safety);
    let mut subsumed: Vec<_> = branch.subsumed_hits.iter().collect();
    subsumed.sort_unstable();
    let subsumed = list(subsumed);
    format!("branch\t{start}\t{span}\t{arms}\t{index}\t{shallow}\t{deep}\t{subsumed}")
}

fn pair<First: Display, Second: Display>((first, second): &(First, Second)) -> String {
    format!("{first}:{second}")
}

fn list(items: impl IntoIterator<Item: Display>) -> String {
    let texts: Vec<String> = items.into_iter().map(|item| item.to_string()).collect();
    match texts[..] {
        [] => NOTHING.to_string(),
        _ => texts.join(","),
    }
}
