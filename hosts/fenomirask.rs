//! A safe wrapper of the static library libfenomirask.a, x86-64.
//!
//! A slice is never null and a `&mut` slice overlaps nothing, so all that include/fenomirask.h asks of a host holds
//! here by Rust's own rules. A call of `events` or of a method of `Clause` needs about 350 KB of stack, one of `check`
//! about 70 KB, one of `bundle` about 360 KB.
use std::fmt;
use std::mem::{size_of, MaybeUninit};

/// A sheet or bundle that is longer is refused, `Refusal::Full` on line 0, and so is a line that is given alone.
pub const SHEET_BYTES: usize = 65_536;

/// No event prints more, nor does the end of a clause.
pub const EVENT_ROOM: usize = 256;

/// Variables of a clause, numbered from 0.
pub const VARIABLES: usize = 64;

/// In the place of a variable's number: no variable.
pub const NO_VARIABLE: u32 = VARIABLES as u32;

/// Uses of one variable.
pub const USES: usize = 16;

/// Registers and slots are 1 to this.
pub const LAST_REGISTER: u32 = 63;

/// A table with a place for each register starts with a place for 0.
pub const REGISTERS: usize = LAST_REGISTER as usize + 1;

/// Entries of the list of freed registers.
pub const FREED_REGISTERS: usize = 64;

/// Entries of the queue of freed slots.
pub const FREED_SLOTS: usize = 128;

/// Branches open at a time.
pub const OPEN_BRANCHES: usize = 16;

/// The refusal numbers: rules 4.1 to 4.9 of docs/RULES.md.
#[derive(Clone, Copy, Debug, PartialEq, Eq)]
pub enum Refusal {
    UnknownForm = 1,
    ForbiddenOrder = 2,
    OutsideSize = 3,
    RustStops = 4,
    NoRegister = 5,
    NoSlot = 6,
    Full = 7,
    UnreachableMark = 8,
    NoRoom = 9,
}

impl Refusal {
    pub const ALL: [Refusal; Refusal::NoRoom as usize] = [
        Refusal::UnknownForm,
        Refusal::ForbiddenOrder,
        Refusal::OutsideSize,
        Refusal::RustStops,
        Refusal::NoRegister,
        Refusal::NoSlot,
        Refusal::Full,
        Refusal::UnreachableMark,
        Refusal::NoRoom,
    ];

    /// The refusal of a number, from 1 on.
    pub fn of_number(number: usize) -> Option<Refusal> {
        Refusal::ALL.get(number.checked_sub(1)?).copied()
    }
}

impl fmt::Display for Refusal {
    fn fmt(&self, f: &mut fmt::Formatter) -> fmt::Result {
        f.write_str(match self {
            Refusal::UnknownForm => {
                "form: the line's word is unknown, it has too many or too few fields or one that is malformed, or its LF is missing"
            }
            Refusal::ForbiddenOrder => "order: the line may not stand where it does",
            Refusal::OutsideSize => "size: a number is too large or too small, or no record has the number of the variable",
            Refusal::RustStops => "the original would stop here",
            Refusal::NoRegister => return write!(f, "no register up to {LAST_REGISTER} can be chosen"),
            Refusal::NoSlot => return write!(f, "no slot up to {LAST_REGISTER} is left"),
            Refusal::Full => "full: the sheet, a list, a table or a count is at its limit",
            Refusal::UnreachableMark => "a mark came where the original holds that none can",
            Refusal::NoRoom => "room: the answer is longer than the room for it",
        })
    }
}

/// A refusal and its line, from 1, or 0 for the whole sheet.
#[derive(Clone, Copy, Debug, PartialEq, Eq)]
pub struct Refused {
    pub line: usize,
    pub refusal: Refusal,
}

impl fmt::Display for Refused {
    fn fmt(&self, f: &mut fmt::Formatter) -> fmt::Result {
        write!(f, "line {}: {}", self.line, self.refusal)
    }
}

impl std::error::Error for Refused {}

/// A safety, as `FenomiraskSafety` of include/fenomirask.h, which says what the numbers mean here and below.
#[derive(Clone, Copy, Debug, PartialEq, Eq)]
#[repr(C)]
pub struct Safety {
    pub code: u32,
    pub start: u32,
    pub span: u32,
}

/// The record of a variable, as `FenomiraskRecord`.
#[derive(Clone, Copy, Debug, PartialEq, Eq)]
#[repr(C)]
pub struct Record {
    pub kind: u32,
    pub context: u32,
    pub chunk: u32,
    pub place: u32,
    pub pending: u32,
    pub safety: Safety,
    pub deep: Safety,
    pub to_perm_var_num: u32,
    pub num_occurrences: u32,
    pub running_count: u32,
    pub unused: [u32; 2],
}

/// A freed slot, as `FenomiraskFreedSlot`.
#[derive(Clone, Copy, Debug, PartialEq, Eq)]
#[repr(C)]
pub struct FreedSlot {
    pub chunk: u32,
    pub variable: u32,
}

/// An open branch, its numbers, as `FenomiraskBranchRow`.
#[derive(Clone, Copy, Debug, PartialEq, Eq)]
#[repr(C)]
pub struct BranchRow {
    pub start: u32,
    pub span: u32,
    pub num_branches: u32,
    pub current_branch_idx: u32,
}

/// An open branch, its sets, as `FenomiraskBranchSets`.
#[derive(Clone, Copy, Debug, PartialEq, Eq)]
#[repr(C)]
pub struct BranchSets {
    pub shallow_safety: u64,
    pub deep_safety: u64,
    pub subsumed_hits: u64,
}

/// The numbers that are no table, as `FenomiraskCounters`.
#[derive(Clone, Copy, Debug, PartialEq, Eq)]
#[repr(C)]
pub struct Counters {
    pub arg_c: u32,
    pub temp_lb: u32,
    pub perm_lb: u32,
    pub arity: u32,
    pub in_tail_position: u32,
    pub records: u32,
    pub events_seen: u32,
    pub freed_registers: u32,
    pub first_freed_slot: u32,
    pub freed_slots: u32,
    pub open_branches: u32,
    pub in_use: u64,
}

/// The state of a clause, as `FenomiraskState`.
#[derive(Clone, Debug, PartialEq, Eq)]
#[repr(C)]
pub struct State {
    pub counters: Counters,
    pub records: [Record; VARIABLES],
    pub use_sets: [[u32; USES]; VARIABLES],
    pub use_counts: [u32; VARIABLES],
    pub no_use: [u64; VARIABLES],
    pub conflict: [u64; VARIABLES],
    pub mappings: [u32; REGISTERS],
    pub freed_registers: [u32; FREED_REGISTERS],
    pub freed_slots: [FreedSlot; FREED_SLOTS],
    pub branch_rows: [BranchRow; OPEN_BRANCHES],
    pub branch_sets: [BranchSets; OPEN_BRANCHES],
}

/// The library's own layout has so many bytes.
const STATE_BYTES: usize = 11_704;
const _: () = assert!(size_of::<State>() == STATE_BYTES);

mod library {
    use super::State;

    #[link(name = "fenomirask", kind = "static")]
    extern "C" {
        pub fn fenomirask_events(
            sheet: *const u8,
            sheet_bytes: usize,
            out: *mut u8,
            out_bytes: usize,
        ) -> i64;
        pub fn fenomirask_check(
            sheet: *const u8,
            sheet_bytes: usize,
            out: *mut u8,
            out_bytes: usize,
        ) -> i64;
        pub fn fenomirask_bundle(
            sheet: *const u8,
            sheet_bytes: usize,
            out: *mut u8,
            out_bytes: usize,
        ) -> i64;
        pub fn fenomirask_event(
            state: *mut State,
            line: *const u8,
            line_bytes: usize,
            out: *mut u8,
            out_bytes: usize,
        ) -> i64;
        pub fn fenomirask_fresh(state: *mut State);
        pub fn fenomirask_end(state: *const State, out: *mut u8, out_bytes: usize) -> i64;
    }
}

/// A refusal is told as the negative of its line, so many times, and its number.
const LINE_WEIGHT: usize = 16;

/// An answer of the library, a count of bytes or a refusal.
fn answered(answer: i64) -> Result<usize, Refused> {
    match usize::try_from(answer) {
        Ok(written) => Ok(written),
        Err(_) => {
            let told = answer.unsigned_abs() as usize;
            let refusal =
                Refusal::of_number(told % LINE_WEIGHT).expect("a refusal has one of these numbers");
            Err(Refused {
                line: told / LINE_WEIGHT,
                refusal,
            })
        }
    }
}

/// The answer to an event sheet stands at the start of `out`, so many bytes; those past it, and all on a refusal, are
/// as they were.
pub fn events(sheet: &[u8], out: &mut [u8]) -> Result<usize, Refused> {
    // SAFETY: both parts are valid for their lengths, not null, and do not overlap.
    answered(unsafe {
        library::fenomirask_events(sheet.as_ptr(), sheet.len(), out.as_mut_ptr(), out.len())
    })
}

/// The answer to a check sheet, `accepted` or `rejected` and an LF, stands at the start of `out`, as with `events`. A
/// `call` leaves an arbitrary number in every register; slots keep what they hold.
pub fn check(sheet: &[u8], out: &mut [u8]) -> Result<usize, Refused> {
    // SAFETY: as in `events`.
    answered(unsafe {
        library::fenomirask_check(sheet.as_ptr(), sheet.len(), out.as_mut_ptr(), out.len())
    })
}

/// The answer to a bundle, those to its clauses one behind another, stands at the start of `out`, as with `events`. A
/// refused clause has its `no` line among them; what is refused here is the whole bundle, on line 0.
pub fn bundle(sheet: &[u8], out: &mut [u8]) -> Result<usize, Refused> {
    // SAFETY: as in `events`.
    answered(unsafe {
        library::fenomirask_bundle(sheet.as_ptr(), sheet.len(), out.as_mut_ptr(), out.len())
    })
}

/// A clause that is given line by line.
#[derive(Clone, Debug, PartialEq, Eq)]
pub struct Clause {
    state: State,
}

impl Clause {
    /// A fresh clause.
    pub fn new() -> Clause {
        let mut state = MaybeUninit::uninit();
        // SAFETY: the part is valid for a state; its bytes are not looked at, and all its numbers are written.
        let state = unsafe {
            library::fenomirask_fresh(state.as_mut_ptr());
            state.assume_init()
        };
        Clause { state }
    }

    /// A clause in a state that was kept. A state that is not valid is refused by each call, `Refusal::OutsideSize` on
    /// line 0.
    pub fn with_state(state: State) -> Clause {
        Clause { state }
    }

    pub fn state(&self) -> &State {
        &self.state
    }

    /// What the event of one line, its LF included, prints stands at the start of `out`, as with `events`. The line's
    /// own refusals are on line 1, those for its length, as of a sheet, and for the room on line 0; the clause is as it
    /// was then.
    pub fn event(&mut self, line: &[u8], out: &mut [u8]) -> Result<usize, Refused> {
        // SAFETY: the three parts are valid for their lengths, not null, and do not overlap.
        answered(unsafe {
            library::fenomirask_event(
                &mut self.state,
                line.as_ptr(),
                line.len(),
                out.as_mut_ptr(),
                out.len(),
            )
        })
    }

    /// The `end` line of the clause as it is stands at the start of `out`, as with `events`.
    pub fn end(&self, out: &mut [u8]) -> Result<usize, Refused> {
        // SAFETY: as in `event`.
        answered(unsafe { library::fenomirask_end(&self.state, out.as_mut_ptr(), out.len()) })
    }
}

impl Default for Clause {
    fn default() -> Clause {
        Clause::new()
    }
}
