//! The library as a Rust host sees it, through the wrapper.
//!
//!     tests STREAM...
//!
//! A stream holds sheets with their answers, each led by a line: the kind, `events`, `check` or `bundle`, the bytes of the
//! sheet and those of the answer. The sheet and the room for the answer are lent between guard bytes; afterwards the
//! sheet and every byte that the answer does not name must be as they were. Each event sheet is also given line by line,
//! and has to give the same; and as a clause of bundles, which have to give what their clauses do, as those of the
//! stream have. Prints what fails, and last how many calls passed and failed; exit 1 if any failed or a stream is
//! malformed.
use std::process::exit;

mod fenomirask;

use fenomirask::{
    BranchRow, BranchSets, Clause, Counters, FreedSlot, Record, Refusal, Refused, Safety, State,
    EVENT_ROOM, FREED_REGISTERS, FREED_SLOTS, LAST_REGISTER, NO_VARIABLE, OPEN_BRANCHES, REGISTERS,
    SHEET_BYTES, USES, VARIABLES,
};

/// Occurrences, running counts, arms and arm indices are 0 to this: rule 3.7 of docs/RULES.md.
const LAST_COUNT: u32 = 65_535;
/// The argument counter, the search start and the next slot are 1 to this: rule 3.11.
const LAST_COUNTER: u32 = LAST_REGISTER + 1;
/// Step lines of a check sheet, `call` among them: rule 3.15.
const STEPS: usize = 256;
/// A use is so many times its context, and its register; a context is 0 in the head, or a chunk behind one of these.
const USE_WEIGHT: u64 = 256;
const MIDDLE: u64 = 256;
const LAST_GOAL: u64 = 512;

/// Refusals are 1 to this: rule 4.9.
const LAST_REFUSAL: usize = 9;
const GUARD: usize = 64;
/// The room for which a stream's answers hold.
const ROOM: usize = SHEET_BYTES;
/// Room for every answer.
const LARGE_ROOM: usize = 1 << 20;
const SHOWN: usize = 20;
const THREADS: usize = 4;

type Answer = fn(&[u8], &mut [u8]) -> Result<usize, Refused>;

/// The functions that answer sheets, and their answers to an empty one.
const SHEET_FUNCTIONS: [(&str, Answer, &[u8]); 2] = [
    ("events", fenomirask::events, END),
    ("check", fenomirask::check, b"accepted\n"),
];

/// What a clause without lines prints.
const END: &[u8] = b"end\t1\t0\n";
/// The line that begins a clause.
const OPENING: &[u8] = b"clause\n";

const NO_ROOM: Refused = Refused {
    line: 0,
    refusal: Refusal::NoRoom,
};
const TOO_LONG: Refused = Refused {
    line: 0,
    refusal: Refusal::Full,
};

#[derive(Default)]
struct Counts {
    passed: usize,
    failed: usize,
}

impl Counts {
    fn count(&mut self, good: bool, what: impl FnOnce() -> String) {
        if good {
            self.passed += 1;
            return;
        }
        self.failed += 1;
        if self.failed <= SHOWN {
            println!("failed: {}", what());
        }
    }

    /// The answer must be a text that is written, or a refusal.
    fn expect(
        &mut self,
        what: &str,
        answer: Answer,
        sheet: &[u8],
        room: usize,
        wanted: Result<&[u8], Refused>,
    ) {
        for fill in [0xA5, 0x5A] {
            let around = vec![fill; GUARD];
            let lent_sheet = [&around, sheet, &around].concat();
            let mut lent = vec![fill; GUARD + room + GUARD];
            let got = answer(
                &lent_sheet[GUARD..][..sheet.len()],
                &mut lent[GUARD..][..room],
            );
            let text = wanted.unwrap_or(b"");
            let (written, rest) = lent[GUARD..].split_at(text.len());
            let good = got == wanted.map(<[u8]>::len)
                && written == text
                && lent[..GUARD] == around
                && rest.iter().all(|&byte| byte == fill)
                && lent_sheet == [&around, sheet, &around].concat();
            self.count(good, || {
                format!(
                    "{what}, room {room}: got {got:?}, wanted {:?}",
                    wanted.map(<[u8]>::len)
                )
            });
        }
    }

    /// A sheet that is answered with the text: with room in plenty, exact room, and where there is a text with one byte
    /// less and none.
    fn expect_text(&mut self, what: &str, answer: Answer, sheet: &[u8], room: usize, text: &[u8]) {
        self.expect(what, answer, sheet, room, Ok(text));
        self.expect(what, answer, sheet, text.len(), Ok(text));
        if !text.is_empty() {
            self.expect(what, answer, sheet, text.len() - 1, Err(NO_ROOM));
            self.expect(what, answer, sheet, 0, Err(NO_ROOM));
        }
    }

    /// A sheet that is refused whatever the room.
    fn expect_refusal(&mut self, what: &str, answer: Answer, sheet: &[u8], refused: Refused) {
        for room in [ROOM, 1, 0] {
            self.expect(what, answer, sheet, room, Err(refused));
        }
    }

    /// A sheet whose answer is longer than ROOM: what is written with exact room is what is written with more.
    fn expect_longer(&mut self, what: &str, answer: Answer, sheet: &[u8]) {
        let mut text = vec![0; LARGE_ROOM];
        let got = answer(sheet, &mut text);
        match got {
            Ok(written) if written > ROOM => {
                self.expect_text(what, answer, sheet, LARGE_ROOM, &text[..written])
            }
            _ => self.count(false, || {
                format!("{what}: got {got:?}, wanted more than {ROOM}")
            }),
        }
    }
}

// ---- Sheets of the tests' own

fn whole_sheets(counts: &mut Counts) {
    for (word, answer, empty) in SHEET_FUNCTIONS {
        let first_line = Refused {
            line: 1,
            refusal: Refusal::UnknownForm,
        };
        counts.expect_text(&format!("{word}, empty"), answer, b"", ROOM, empty);
        counts.expect(
            &format!("{word}, empty slices"),
            answer,
            &[],
            0,
            Err(NO_ROOM),
        );
        counts.count(answer(&[], &mut []) == Err(NO_ROOM), || {
            format!("{word}, slices of nothing")
        });
        for byte in [b'\n', 0xFF] {
            let what = format!("{word}, bytes {byte}");
            counts.expect_refusal(&what, answer, &[byte], first_line);
            counts.expect_refusal(&what, answer, &vec![byte; SHEET_BYTES], first_line);
            counts.expect_refusal(&what, answer, &vec![byte; SHEET_BYTES + 1], TOO_LONG);
        }
    }
    let (full, past) = (silent(SHEET_BYTES), silent(SHEET_BYTES + 1));
    counts.expect_text("a full sheet", fenomirask::events, &full, ROOM, END);
    counts.expect_refusal("one byte more", fenomirask::events, &past, TOO_LONG);
}

/// Good lines of exactly so many bytes that print nothing.
fn silent(bytes: usize) -> Vec<u8> {
    let (line, longer) = ("reset\n", "tail\t0\n"); // longer by one byte
    let longer_lines = longer.repeat(bytes % line.len());
    let lines = line.repeat((bytes - longer_lines.len()) / line.len());
    assert_eq!(longer_lines.len() + lines.len(), bytes);
    [longer_lines, lines].concat().into_bytes()
}

/// Check sheets, blanks standing for tabs, and whether they are accepted.
const VERDICTS: [(&str, bool); 9] = [
    // The sheets of rule 24.12.
    (
        "g 1 0\nput_variable x5 1\ncall\ng 1 0\nput_value x5 1\ncall\n",
        false,
    ),
    (
        "g 1 0\nput_variable y1 1\ncall\ng 1 0\nput_value y1 1\ncall\n",
        true,
    ),
    // A call with no goal steps, and the same sheet without it.
    ("h 1 0\ncall\ng 1 0\ncall\n", false),
    ("h 1 0\ng 1 0\ncall\n", true),
    // A subterm read behind a call, and before it.
    ("h 1 0\ncall\ngd 0\nset_value x1\ncall\n", false),
    ("h 1 0\ngd 0\nset_value x1\ncall\n", true),
    // A slot, and one that is written behind the call.
    (
        "h 1 0\nget_variable y1 1\ncall\ng 2 0\nput_value y1 2\ncall\n",
        true,
    ),
    (
        "h 1 0\nget_variable y1 1\ncall\ng 2 0\nget_variable y1 1\nput_value y1 2\ncall\n",
        false,
    ),
    // A register that is written behind the call.
    (
        "call\ng 1 0\nput_variable x5 1\ng 2 0\nput_value x5 2\ncall\n",
        true,
    ),
];

/// Every register is lost at a call, which reads its arguments before, and every slot is kept.
fn spoilt_registers(counts: &mut Counts) {
    let mut expect = |sheet: &str, accepted: bool| {
        let word = if accepted { "accepted\n" } else { "rejected\n" };
        let (what, lines) = (sheet.replace('\n', " / "), sheet.replace(' ', "\t"));
        counts.expect_text(
            &what,
            fenomirask::check,
            lines.as_bytes(),
            ROOM,
            word.as_bytes(),
        );
    };
    for (sheet, accepted) in VERDICTS {
        expect(sheet, accepted);
    }
    for k in 1..=LAST_REGISTER {
        expect(&format!("h {k} 0\ng {k} 0\ncall\n"), true);
        expect(&format!("h {k} 0\ng {k} 0\ncall\ng {k} 0\ncall\n"), false);
        let (kept, put) = (format!("get_variable y{k} 1"), format!("put_value y{k} 1"));
        expect(&format!("h 1 0\n{kept}\ncall\ng 1 0\n{put}\ncall\n"), true);
    }
    // As many calls as fit between a head step and a goal; and a sheet of nothing but calls.
    let calls = "call\n".repeat(STEPS - 3);
    expect(&format!("h 1 0\n{calls}g 1 0\ncall\n"), false);
    let (kept, put) = (
        format!("get_variable y{LAST_REGISTER} 1"),
        format!("put_value y{LAST_REGISTER} 1"),
    );
    expect(&format!("h 1 0\n{kept}\n{calls}g 1 0\n{put}\ncall\n"), true);
    expect(&"call\n".repeat(STEPS), true);
}

/// The refusals' numbers and words.
fn refusals(counts: &mut Counts) {
    let mut words: Vec<String> = Refusal::ALL.iter().map(Refusal::to_string).collect();
    for (at, &refusal) in Refusal::ALL.iter().enumerate() {
        let number = refusal as usize;
        counts.count(
            number == at + 1 && Refusal::of_number(number) == Some(refusal),
            || format!("refusal {number}"),
        );
    }
    words.sort();
    words.dedup();
    let last = LAST_REFUSAL;
    counts.count(words.len() == last, || {
        "two refusals have the same words".to_string()
    });
    counts.count(
        Refusal::of_number(0).is_none() && Refusal::of_number(last + 1).is_none(),
        || "a refusal before the first or behind the last".to_string(),
    );
    let told = Refused {
        line: 3,
        refusal: Refusal::NoRegister,
    }
    .to_string();
    let wanted = format!("line 3: no register up to {LAST_REGISTER} can be chosen");
    counts.count(told == wanted, || told.clone());
}

// ---- One line at a time

const BAD_STATE: Refused = Refused {
    line: 0,
    refusal: Refusal::OutsideSize,
};

fn on_line(line: usize, refusal: Refusal) -> Refused {
    Refused { line, refusal }
}

/// A clause between guard bytes.
#[repr(C)]
struct Guarded {
    before: [u8; GUARD],
    clause: Clause,
    after: [u8; GUARD],
}

/// One call with lent parts, of `event` or, where there is no line, of `end`: the answer with what was written, and
/// whether all that may not change is as it was.
fn call(
    clause: &mut Clause,
    line: Option<&[u8]>,
    room: usize,
    fill: u8,
) -> (Result<Vec<u8>, Refused>, bool) {
    let mut guarded = Guarded {
        before: [fill; GUARD],
        clause: clause.clone(),
        after: [fill; GUARD],
    };
    let around = [fill; GUARD];
    let around_line = [&around, line.unwrap_or(b""), &around].concat();
    let lent_line = around_line.clone();
    let mut lent = vec![fill; GUARD + room + GUARD];
    let out = &mut lent[GUARD..][..room];
    let got = match line {
        Some(line) => guarded.clause.event(&lent_line[GUARD..][..line.len()], out),
        None => guarded.clause.end(out),
    };
    let written = got.unwrap_or(0);
    let kept = guarded.before == around
        && guarded.after == around
        && lent_line == around_line
        && written <= room
        && lent[..GUARD] == around
        && lent[GUARD + written..].iter().all(|&byte| byte == fill)
        && ((line.is_some() && got.is_ok()) || guarded.clause == *clause);
    *clause = guarded.clause;
    (got.map(|_| lent[GUARD..][..written].to_vec()), kept)
}

impl Counts {
    fn expect_call(
        &mut self,
        clause: &mut Clause,
        line: Option<&[u8]>,
        room: usize,
        wanted: Result<&[u8], Refused>,
    ) {
        let before = clause.clone();
        for fill in [0xA5, 0x5A] {
            *clause = before.clone();
            let (got, kept) = call(clause, line, room, fill);
            self.count(kept && got == wanted.map(<[u8]>::to_vec), || {
                let line = line.map(String::from_utf8_lossy);
                format!("line {line:?}, room {room}: got {got:?}, wanted {wanted:?}, kept {kept}")
            });
        }
    }

    /// A line, or the end, that is answered with the text: too little room first, then as much as it needs.
    fn expect_line(&mut self, clause: &mut Clause, line: Option<&[u8]>, text: &[u8]) {
        let mut large = clause.clone();
        self.expect_call(&mut large, line, EVENT_ROOM, Ok(text));
        if !text.is_empty() {
            self.expect_call(clause, line, 0, Err(NO_ROOM));
            self.expect_call(clause, line, text.len() - 1, Err(NO_ROOM));
        }
        self.expect_call(clause, line, text.len(), Ok(text));
        self.count(*clause == large, || format!("{line:?}: the room matters"));
    }

    /// A line that is refused whatever the room.
    fn expect_refused(&mut self, clause: &mut Clause, line: &[u8], refused: Refused) {
        for room in [EVENT_ROOM, 1, 0] {
            self.expect_call(clause, Some(line), room, Err(refused));
        }
    }

    /// So it is on line 1.
    fn expect_line_refusal(&mut self, clause: &mut Clause, line: &[u8], refusal: Refusal) {
        self.expect_refused(clause, line, on_line(1, refusal));
    }
}

/// A fresh state, as include/fenomirask.h has it.
fn fresh_state() -> State {
    let safety = Safety {
        code: 0,
        start: 0,
        span: 0,
    };
    let record = Record {
        kind: 0,
        context: 0,
        chunk: 0,
        place: 0,
        pending: 0,
        safety,
        deep: safety,
        to_perm_var_num: 0,
        num_occurrences: 0,
        running_count: 0,
        unused: [0; 2],
    };
    State {
        counters: Counters {
            arg_c: 1,
            temp_lb: 1,
            perm_lb: 1,
            arity: 0,
            in_tail_position: 0,
            records: 0,
            events_seen: 0,
            freed_registers: 0,
            first_freed_slot: 0,
            freed_slots: 0,
            open_branches: 0,
            in_use: 0,
        },
        records: [record; VARIABLES],
        use_sets: [[0; USES]; VARIABLES],
        use_counts: [0; VARIABLES],
        no_use: [0; VARIABLES],
        conflict: [0; VARIABLES],
        mappings: [NO_VARIABLE; REGISTERS],
        freed_registers: [0; FREED_REGISTERS],
        freed_slots: [FreedSlot {
            chunk: 0,
            variable: 0,
        }; FREED_SLOTS],
        branch_rows: [BranchRow {
            start: 0,
            span: 0,
            num_branches: 0,
            current_branch_idx: 0,
        }; OPEN_BRANCHES],
        branch_sets: [BranchSets {
            shallow_safety: 0,
            deep_safety: 0,
            subsumed_hits: 0,
        }; OPEN_BRANCHES],
    }
}

/// The offset of each field, as the C header has it.
fn layout(counts: &mut Counts) {
    let s = fresh_state();
    macro_rules! offsets {
        ($([$($field:tt)+] $wanted:literal,)*) => {
            $({
                let field = std::ptr::addr_of!(s.$($field)+) as usize;
                let got = field - std::ptr::addr_of!(s) as usize;
                counts.count(got == $wanted, || {
                    format!("the offset of {} is {got}", stringify!($($field)+))
                });
            })*
        };
    }
    offsets! {
        [counters.arg_c] 0,
        [counters.temp_lb] 4,
        [counters.perm_lb] 8,
        [counters.arity] 12,
        [counters.in_tail_position] 16,
        [counters.records] 20,
        [counters.events_seen] 24,
        [counters.freed_registers] 28,
        [counters.first_freed_slot] 32,
        [counters.freed_slots] 36,
        [counters.open_branches] 40,
        [counters.in_use] 48,
        [records] 56,
        [records[1].kind] 120,
        [records[1].context] 124,
        [records[1].chunk] 128,
        [records[1].place] 132,
        [records[1].pending] 136,
        [records[1].safety] 140,
        [records[1].deep] 152,
        [records[1].to_perm_var_num] 164,
        [records[1].num_occurrences] 168,
        [records[1].running_count] 172,
        [use_sets] 4152,
        [use_sets[1][1]] 4220,
        [use_counts] 8248,
        [no_use] 8504,
        [conflict] 9016,
        [mappings] 9528,
        [freed_registers] 9784,
        [freed_slots] 10040,
        [freed_slots[1].variable] 10052,
        [branch_rows] 11064,
        [branch_rows[1].span] 11084,
        [branch_rows[1].num_branches] 11088,
        [branch_rows[1].current_branch_idx] 11092,
        [branch_sets] 11320,
        [branch_sets[1].shallow_safety] 11344,
        [branch_sets[1].deep_safety] 11352,
        [branch_sets[1].subsumed_hits] 11360,
    }
    counts.count(*Clause::new().state() == s, || "a fresh clause".to_string());
    counts.count(Clause::default() == Clause::with_state(s), || {
        "a default clause".to_string()
    });
}

/// A state in which many tables count, by lines whose answers are known; and what they wrote.
fn reached(counts: &mut Counts) -> Clause {
    let mut clause = Clause::new();
    let lines: [(&str, &str); 18] = [
        ("perm\t3\n", ""),
        ("perm\t4\n", ""),
        ("temp\tm7\t2\tl1:2,m3:4,h:5\n", ""),
        ("temp\tl9\t9\t-\n", ""),
        ("sets\n", ""),
        ("args\t4\n", ""),
        ("tail\t1\n", ""),
        ("give\t9\n", ""),
        ("give\t10\n", ""),
        ("open\t11\t12\t3\n", ""),
        ("var\tf\ts\tm7\t0\n", "get_variable\ty1\t1\nat\ty1\n"),
        ("var\tq\td\tm7\t2\n", "set_variable\tx2\nat\tx2\n"),
        ("arm\t13\t14\n", ""),
        ("safe\t0\n", ""),
        (
            "var\tf\ts\tm7\t1\n",
            "get_variable\tx4\t2\nget_variable\ty2\t2\nat\ty2\n",
        ),
        ("incr\t1\n", ""),
        ("free\t8\t1\n", ""),
        ("next\n", ""),
    ];
    for (line, text) in lines {
        counts.expect_line(&mut clause, Some(line.as_bytes()), text.as_bytes());
    }
    counts.expect_line(&mut clause, None, b"end\t5\t2\n");
    let s = clause.state();
    let mut number = |what: &str, got: u64, wanted: u64| {
        counts.count(got == wanted, || format!("{what}: {got}, wanted {wanted}"))
    };
    number("arg_c", s.counters.arg_c.into(), 4);
    number("temp_lb", s.counters.temp_lb.into(), 5);
    number("perm_lb", s.counters.perm_lb.into(), 3);
    number("tail", s.counters.in_tail_position.into(), 1);
    number("records", s.counters.records.into(), 4);
    number("seen", s.counters.events_seen.into(), 1);
    number("freed registers", s.counters.freed_registers.into(), 2);
    number("freed slots", s.counters.freed_slots.into(), 1);
    number("open branches", s.counters.open_branches.into(), 1);
    number("in use", s.counters.in_use, 0b10110);
    number("kind", s.records[0].kind.into(), 1);
    number("slot", s.records[0].place.into(), 1);
    number("shallow", s.records[0].safety.code.into(), 1);
    number("shallow start", s.records[0].safety.start.into(), 13);
    number("shallow span", s.records[0].safety.span.into(), 14);
    number("deep start", s.records[0].deep.start.into(), 13);
    number("occurrences", s.records[1].num_occurrences.into(), 4);
    number("running count", s.records[1].running_count.into(), 2);
    number("pending", s.records[1].pending.into(), 1);
    number("context", s.records[2].context.into(), 1);
    number("chunk", s.records[2].chunk.into(), 7);
    number("register", s.records[2].place.into(), 4);
    let moved_to = s.records[2].to_perm_var_num;
    number("no variable", moved_to.into(), NO_VARIABLE.into());
    let uses = s.use_sets[2];
    number("a use", uses[0].into(), USE_WEIGHT * (LAST_GOAL + 1) + 2);
    number("a use", uses[1].into(), USE_WEIGHT * (MIDDLE + 3) + 4);
    number("uses", s.use_counts[2].into(), 3);
    number("conflict", s.conflict[2], 0b10);
    number("mapping", s.mappings[4].into(), 2);
    number("freed register", s.freed_registers[1].into(), 10);
    number("chunk of a slot", s.freed_slots[0].chunk.into(), 8);
    number("owner of a slot", s.freed_slots[0].variable.into(), 1);
    number("branch", s.branch_rows[0].start.into(), 13);
    number("branch", s.branch_rows[0].span.into(), 14);
    number("arms", s.branch_rows[0].num_branches.into(), 3);
    number("arm", s.branch_rows[0].current_branch_idx.into(), 1);
    number("hits", s.branch_sets[0].subsumed_hits, 0b11);
    clause
}

fn single_lines(counts: &mut Counts) {
    let mut clause = Clause::new();
    for line in [
        "",
        "\n",
        "perm\t1",
        "perm\t1\n\n",
        "perm\t1\nperm\t2\n",
        "perm\t1\np",
    ] {
        counts.expect_line_refusal(&mut clause, line.as_bytes(), Refusal::UnknownForm);
    }
    counts.expect_line_refusal(&mut clause, b"safe\t0\n", Refusal::OutsideSize);
    counts.expect_line_refusal(&mut clause, b"take\n", Refusal::RustStops);
    counts.expect_line(&mut clause, Some(b"perm\t1\n"), b"");
    counts.expect_line(&mut clause, Some(b"reset\n"), b"");
    counts.expect_line_refusal(&mut clause, b"perm\t1\n", Refusal::ForbiddenOrder);
    counts.expect_line(&mut clause, None, b"end\t1\t0\n");
}

/// A line of so many bytes, its LF counted: the start, and more behind it as often as there is place.
fn long_line(bytes: usize, start: &str, more: &str) -> Vec<u8> {
    let times = (bytes - 1 - start.len()) / more.len();
    let line = [start, &more.repeat(times), "\n"].concat();
    assert_eq!(line.len(), bytes);
    line.into_bytes()
}

/// A line as long as a sheet may be is judged as any other. One byte more, LF or no LF, and it is refused as a sheet
/// is, before it is looked at and after the state.
fn long_lines(counts: &mut Counts) {
    let mut clause = Clause::new();
    let mut state = fresh_state();
    state.counters.arg_c = 0;
    let mut bad = Clause::with_state(state);
    let full = [
        (vec![b'\n'; SHEET_BYTES], Refusal::UnknownForm),
        (vec![b'a'; SHEET_BYTES], Refusal::UnknownForm),
        (long_line(SHEET_BYTES, "a", "a"), Refusal::UnknownForm),
        (
            long_line(SHEET_BYTES, "temp\tm100\t1\th:1", ",h:1"),
            Refusal::Full,
        ),
    ];
    for (line, refusal) in &full {
        counts.expect_line_refusal(&mut clause, line, *refusal);
        counts.expect_refused(&mut bad, line, BAD_STATE);
    }
    let past = [
        vec![b'\n'; SHEET_BYTES + 1],
        vec![b'a'; SHEET_BYTES + 1],
        vec![b'a'; 2 * SHEET_BYTES],
        long_line(SHEET_BYTES + 1, "a", "a"),
        long_line(SHEET_BYTES + 1, "head", "\t-"),
        long_line(SHEET_BYTES + 1, "temp\th\t1\th:1", ",h:1"),
    ];
    for line in &past {
        counts.expect_refused(&mut clause, line, TOO_LONG);
        counts.expect_refused(&mut bad, line, BAD_STATE);
    }
    counts.expect_line(&mut clause, Some(b"perm\t1\n"), b"");
}

/// States with one number changed, that are valid or not.
fn spoilt_states(counts: &mut Counts, good: &Clause) {
    type Spoil = fn(&mut State, u32);
    const MOST_RECORDS: u32 = VARIABLES as u32;
    const REGISTERS_FREED: u32 = FREED_REGISTERS as u32;
    const SLOTS_FREED: u32 = FREED_SLOTS as u32;
    const BRANCHES: u32 = OPEN_BRANCHES as u32;
    /// Of the clause that is spoilt: its variables, and the permanent ones, which are the first.
    const RECORDS: u32 = 4;
    const PERMANENT: u32 = 2;
    let spoils: [(&str, Spoil, u32, u32); 26] = [
        (
            "arg_c",
            |s, n| s.counters.arg_c = n,
            LAST_COUNTER,
            LAST_COUNTER + 1,
        ),
        ("temp_lb", |s, n| s.counters.temp_lb = n, 1, 0),
        (
            "perm_lb",
            |s, n| s.counters.perm_lb = n,
            LAST_COUNTER,
            LAST_COUNTER + 1,
        ),
        (
            "arity",
            |s, n| s.counters.arity = n,
            LAST_REGISTER,
            LAST_REGISTER + 1,
        ),
        ("tail", |s, n| s.counters.in_tail_position = n, 0, 2),
        (
            "records",
            |s, n| s.counters.records = n,
            MOST_RECORDS,
            MOST_RECORDS + 1,
        ),
        ("seen", |s, n| s.counters.events_seen = n, 0, 2),
        (
            "freed registers",
            |s, n| s.counters.freed_registers = n,
            0,
            REGISTERS_FREED + 1,
        ),
        (
            "first slot",
            |s, n| s.counters.first_freed_slot = n,
            SLOTS_FREED - 1,
            SLOTS_FREED,
        ),
        (
            "freed slots",
            |s, n| s.counters.freed_slots = n,
            SLOTS_FREED,
            SLOTS_FREED + 1,
        ),
        (
            "open branches",
            |s, n| s.counters.open_branches = n,
            BRANCHES,
            BRANCHES + 1,
        ),
        (
            "in use",
            |s, n| s.counters.in_use = n.into(),
            1 << 1,
            1 << 0,
        ),
        ("kind", |s, n| s.records[3].kind = n, 1, 2),
        (
            "to_perm_var_num",
            |s, n| s.records[2].to_perm_var_num = n,
            RECORDS - 1,
            RECORDS,
        ),
        (
            "running count",
            |s, n| s.records[3].running_count = n,
            LAST_COUNT,
            LAST_COUNT + 1,
        ),
        (
            "start",
            |s, n| s.records[3].safety.start = n,
            u32::MAX,
            u32::MAX,
        ),
        (
            "past the records",
            |s, n| s.records[RECORDS as usize].kind = n,
            u32::MAX,
            u32::MAX,
        ),
        (
            "a use",
            |s, n| s.use_sets[2][1] = n,
            LAST_REGISTER,
            LAST_REGISTER + 1,
        ),
        (
            "a use past the count",
            |s, n| s.use_sets[2][3] = n,
            u32::MAX,
            u32::MAX,
        ),
        ("conflict", |s, n| s.conflict[3] = n.into(), 1 << 1, 1 << 0),
        (
            "mapping",
            |s, n| s.mappings[0] = n,
            RECORDS - 1,
            PERMANENT - 1,
        ),
        (
            "freed register",
            |s, n| s.freed_registers[1] = n,
            LAST_REGISTER,
            0,
        ),
        (
            "owner of a slot",
            |s, n| s.freed_slots[0].variable = n,
            RECORDS - 1,
            RECORDS,
        ),
        (
            "arms",
            |s, n| s.branch_rows[0].num_branches = n,
            LAST_COUNT,
            LAST_COUNT + 1,
        ),
        (
            "shallow",
            |s, n| s.branch_sets[0].shallow_safety = n.into(),
            (1 << RECORDS) - 1,
            1 << RECORDS,
        ),
        (
            "hits",
            |s, n| s.branch_sets[0].subsumed_hits = n.into(),
            (1 << PERMANENT) - 1,
            1 << PERMANENT,
        ),
    ];
    for (what, spoil, inside, outside) in spoils {
        for (number, valid) in [(inside, true), (outside, inside == outside)] {
            for line in [Some(&b"reset\n"[..]), Some(b"take\n"), Some(b""), None] {
                let mut state = good.state().clone();
                spoil(&mut state, number);
                let mut clause = Clause::with_state(state);
                let (got, kept) = call(&mut clause, line, EVENT_ROOM, 0x5A);
                counts.count(kept && (got != Err(BAD_STATE)) == valid, || {
                    format!("{what} is {number}, line {line:?}: got {got:?}")
                });
            }
        }
    }
}

/// An event sheet line by line: its answer, and whether every call kept what it may not change and refused no state.
fn by_lines(sheet: &[u8]) -> (Result<Vec<u8>, Refused>, bool) {
    let (mut clause, mut text, mut kept) = (Clause::new(), Vec::new(), true);
    for (at, line) in sheet.split_inclusive(|&byte| byte == b'\n').enumerate() {
        let (got, well) = call(&mut clause, Some(line), EVENT_ROOM, 0xA5);
        kept &= well;
        match got {
            Ok(printed) => text.extend(printed),
            Err(refused) => {
                let (end, well) = call(&mut clause, None, EVENT_ROOM, 0x5A);
                kept &= well && end.is_ok() && refused.line == 1;
                return (Err(on_line(at + 1, refused.refusal)), kept);
            }
        }
    }
    let (end, well) = call(&mut clause, None, EVENT_ROOM, 0x5A);
    (end.map(|end| [text, end].concat()), kept && well)
}

// ---- Bundles

/// Whether a line's word is `clause`.
fn opens(line: &[u8]) -> bool {
    let word = line.split(|&byte| byte == b'\t' || byte == b'\n').next();
    word == Some(b"clause")
}

/// The bundle of clauses with these lines.
fn bundled(clauses: &[&[u8]]) -> Vec<u8> {
    clauses
        .iter()
        .flat_map(|lines| [OPENING, lines].concat())
        .collect()
}

/// The line that is printed of a clause that is refused.
fn no_line(line: usize, refusal: Refusal) -> Vec<u8> {
    format!("no\t{line}\t{}\n", refusal as usize).into_bytes()
}

/// What a clause prints: the answer to its lines, or its `no` line.
fn clause_text(lines: &[u8]) -> Vec<u8> {
    let mut out = vec![0; LARGE_ROOM];
    match fenomirask::events(lines, &mut out) {
        Ok(written) => out[..written].to_vec(),
        Err(Refused { line, refusal }) => {
            assert!(line > 0, "a clause is refused at a line");
            no_line(line, refusal)
        }
    }
}

/// The lines of each clause of a bundle that is not refused but for the room.
fn clauses_of(bundle: &[u8]) -> Vec<Vec<u8>> {
    let mut clauses: Vec<Vec<u8>> = Vec::new();
    for line in bundle.split_inclusive(|&byte| byte == b'\n') {
        match clauses.last_mut() {
            Some(clause) if !opens(line) => clause.extend(line),
            _ => clauses.push(Vec::new()),
        }
    }
    clauses
}

/// Whether a sheet may be a clause: its lines are whole, none has the word `clause`, and a bundle has place for them.
fn may_be_clause(sheet: &[u8]) -> bool {
    sheet.len() + OPENING.len() <= SHEET_BYTES
        && sheet.last().map_or(true, |&byte| byte == b'\n')
        && !sheet.split_inclusive(|&byte| byte == b'\n').any(opens)
}

impl Counts {
    /// A bundle that may not be refused but for the room: it prints what its clauses do, one call each.
    fn expect_clauses(&mut self, what: &str, bundle: &[u8]) {
        let text: Vec<u8> = clauses_of(bundle)
            .iter()
            .flat_map(|lines| clause_text(lines))
            .collect();
        if text.len() <= ROOM {
            self.expect_text(what, fenomirask::bundle, bundle, ROOM, &text);
        } else {
            self.expect(what, fenomirask::bundle, bundle, ROOM, Err(NO_ROOM));
            self.expect_text(what, fenomirask::bundle, bundle, LARGE_ROOM, &text);
        }
    }

    /// Two sheets as bundles: the first alone, both, and both in the other order.
    fn expect_as_clauses(&mut self, what: &str, one: &[u8], other: &[u8]) {
        if !may_be_clause(one) {
            return;
        }
        self.expect_clauses(what, &bundled(&[one]));
        let both = bundled(&[one, other]);
        if may_be_clause(other) && both.len() <= SHEET_BYTES {
            self.expect_clauses(what, &both);
            self.expect_clauses(what, &bundled(&[other, one]));
        }
    }
}

/// Which refusal of a bundle comes first, and what is a clause's own line.
fn bundle_lines(counts: &mut Counts) {
    let refused: [(&str, Refusal); 19] = [
        ("\n", Refusal::ForbiddenOrder),
        ("perm\t1\nclause\n", Refusal::ForbiddenOrder),
        ("\nclause\n", Refusal::ForbiddenOrder),
        ("clauses\n", Refusal::ForbiddenOrder),
        ("claus\n", Refusal::ForbiddenOrder),
        ("clause \n", Refusal::ForbiddenOrder),
        ("clause\r\nclause\n", Refusal::ForbiddenOrder),
        ("Clause\nclause\n", Refusal::ForbiddenOrder),
        ("\tclause\n", Refusal::ForbiddenOrder),
        ("x\nclause\t1\n", Refusal::ForbiddenOrder),
        ("clauses\nclause\t1\n", Refusal::ForbiddenOrder),
        ("clause\t\n", Refusal::UnknownForm),
        ("clause\t1\n", Refusal::UnknownForm),
        ("clause\nx\nclause\t1\nclause\n", Refusal::UnknownForm),
        ("clause", Refusal::UnknownForm),
        ("clause\t1", Refusal::UnknownForm),
        ("clause\nperm\t1", Refusal::UnknownForm),
        ("x", Refusal::UnknownForm),
        ("x\nclause\nreset", Refusal::UnknownForm),
    ];
    for (bundle, refusal) in refused {
        let (what, refused) = (format!("{bundle:?}"), on_line(0, refusal));
        counts.expect_refusal(&what, fenomirask::bundle, bundle.as_bytes(), refused);
    }
    let answered: [(&str, &str); 11] = [
        ("", ""),
        ("clause\n", "end\t1\t0\n"),
        ("clause\nclause\n", "end\t1\t0\nend\t1\t0\n"),
        ("clause\n\n", "no\t1\t1\n"),
        ("clause\nclauses\nclause\n", "no\t1\t1\nend\t1\t0\n"),
        ("clause\nreset\nclause \n", "no\t2\t1\n"),
        ("clause\nClause\n", "no\t1\t1\n"),
        ("clause\nclause\r\n", "no\t1\t1\n"),
        ("clause\n\tclause\n", "no\t1\t1\n"),
        ("clause\nreset\nclause\nperm\t1\n", "end\t1\t0\nend\t1\t0\n"),
        (
            "clause\nperm\t1\nclause\nsafe\t0\n",
            "end\t1\t0\nno\t1\t3\n",
        ),
    ];
    for (bundle, text) in answered {
        let (what, bundle) = (format!("{bundle:?}"), bundle.as_bytes());
        counts.expect_text(&what, fenomirask::bundle, bundle, ROOM, text.as_bytes());
        counts.expect_clauses(&what, bundle);
    }
    counts.count(fenomirask::bundle(&[], &mut []) == Ok(0), || {
        "bundle, slices of nothing".to_string()
    });
}

/// Bundles as long as they may be, and one byte more.
fn long_bundles(counts: &mut Counts) {
    for (byte, refusal) in [
        (b'\n', Refusal::ForbiddenOrder),
        (0xFF, Refusal::UnknownForm),
    ] {
        let (what, bytes) = (format!("bundle, bytes {byte}"), vec![byte; SHEET_BYTES + 1]);
        let full = &bytes[..SHEET_BYTES];
        counts.expect_refusal(&what, fenomirask::bundle, full, on_line(0, refusal));
        counts.expect_refusal(&what, fenomirask::bundle, &bytes, TOO_LONG);
    }
    let mut bundle = bundled(&[&silent(SHEET_BYTES - OPENING.len())]);
    counts.expect_text("a full bundle", fenomirask::bundle, &bundle, ROOM, END);
    bundle.push(b'\n');
    counts.expect_refusal("one byte more", fenomirask::bundle, &bundle, TOO_LONG);
    let line = long_line(SHEET_BYTES - OPENING.len(), "temp\th\t1\th:1", ",h:1");
    counts.expect_text(
        "a line as long as it may be",
        fenomirask::bundle,
        &bundled(&[&line]),
        ROOM,
        &no_line(1, Refusal::Full),
    );
}

/// Lines that print as much again with each of so many marks.
fn printing(marks: usize) -> String {
    let first = format!("temp\tl1\t{LAST_COUNT}\t-\nargs\t8\nvar\tq\td\tm1\t0\n");
    [first, "var\tf\td\th\t0\n".repeat(marks)].concat()
}

/// Answers as long as a bundle may be, and longer; what a refused clause printed counts nowhere.
fn long_bundle_answers(counts: &mut Counts) {
    let ends = ROOM / END.len();
    let (bundle, text) = (OPENING.repeat(ends + 1), END.repeat(ends + 1));
    counts.expect_text(
        "as many empty clauses as have room",
        fenomirask::bundle,
        &bundle[..OPENING.len() * ends],
        ROOM,
        &text[..END.len() * ends],
    );
    counts.expect_clauses("one more", &bundle);
    counts.expect_longer("one more", fenomirask::bundle, &bundle);

    let printed = |marks| clause_text(printing(marks).as_bytes()).len();
    let marks = ROOM / (printed(1) - printed(0)) + 1; // they print more than ROOM
    let (long, refused) = (printing(marks), printing(marks) + "x\n");
    let bundle = bundled(&[long.as_bytes()]);
    counts.expect_clauses("one clause alone too long", &bundle);
    counts.expect_longer("one clause alone too long", fenomirask::bundle, &bundle);
    let bundle = bundled(&[refused.as_bytes(), b""]);
    let last_line = refused.lines().count();
    let text = [&no_line(last_line, Refusal::UnknownForm), END].concat();
    for room in [ROOM, LARGE_ROOM] {
        counts.expect_text(
            "a long clause refused at its end",
            fenomirask::bundle,
            &bundle,
            room,
            &text,
        );
    }
    let refused = printing(marks * 2 / 3) + "x\n";
    let (long, refused) = (long.as_bytes(), refused.as_bytes());
    for clauses in [[long, refused, b""], [refused, b"", long]] {
        let bundle = bundled(&clauses);
        counts.expect_longer("a late refusal", fenomirask::bundle, &bundle);
        counts.expect_clauses("a late refusal", &bundle);
    }
}

// ---- Sheets of a stream

struct Sheet<'a> {
    word: &'a str,
    answer: Answer,
    sheet: &'a [u8],
    wanted: Result<&'a [u8], Refused>,
}

/// What a printed answer stands for. A bundle's answer may start with the `no` line of a clause, which is never on line
/// 0, and may be empty.
fn wanted<'a>(word: &str, text: &'a [u8]) -> Option<Result<&'a [u8], Refused>> {
    let is_refused = text.starts_with(if word == "bundle" {
        b"no\t0\t"
    } else {
        b"no\t"
    });
    if !is_refused {
        return (word == "bundle" || !text.is_empty()).then_some(Ok(text));
    }
    let told = std::str::from_utf8(text).ok()?.trim_end();
    let (line, number) = told.strip_prefix("no\t")?.split_once('\t')?;
    let refusal = Refusal::of_number(number.parse().ok()?)?;
    Some(Err(on_line(line.parse().ok()?, refusal)))
}

/// The first sheet of a stream, and what follows it.
fn first_sheet(data: &[u8]) -> Option<(Sheet<'_>, &[u8])> {
    let end = data.iter().position(|&byte| byte == b'\n')?;
    let line = std::str::from_utf8(&data[..end]).ok()?;
    let mut fields = line.split('\t');
    let word = fields.next()?;
    let (sheet_bytes, text_bytes): (usize, usize) =
        (fields.next()?.parse().ok()?, fields.next()?.parse().ok()?);
    let answer = match word {
        "events" => fenomirask::events,
        "check" => fenomirask::check,
        "bundle" => fenomirask::bundle,
        _ => return None,
    };
    let data = &data[end + 1..];
    let (sheet, text) = (
        data.get(..sheet_bytes)?,
        data.get(sheet_bytes..)?.get(..text_bytes)?,
    );
    Some((
        Sheet {
            word,
            answer,
            sheet,
            wanted: wanted(word, text)?,
        },
        &data[sheet_bytes + text_bytes..],
    ))
}

fn sheets_of<'a>(path: &str, data: &'a [u8]) -> Vec<Sheet<'a>> {
    let (mut sheets, mut rest) = (Vec::new(), data);
    while !rest.is_empty() {
        let (sheet, after) = first_sheet(rest).unwrap_or_else(|| {
            println!("malformed: {path}, sheet {}", sheets.len() + 1);
            exit(1)
        });
        sheets.push(sheet);
        rest = after;
    }
    sheets
}

fn run_sheets(sheets: &[Sheet], counts: &mut Counts) {
    let mut last: &[u8] = b"";
    for (
        at,
        &Sheet {
            word,
            answer,
            sheet,
            wanted,
        },
    ) in sheets.iter().enumerate()
    {
        let what = format!("sheet {} of the stream", at + 1);
        match wanted {
            Ok(text) => counts.expect_text(&what, answer, sheet, ROOM, text),
            Err(refused) => counts.expect_refusal(&what, answer, sheet, refused),
        }
        if wanted == Err(NO_ROOM) {
            counts.expect_longer(&what, answer, sheet);
        }
        if word == "bundle" && (wanted.is_ok() || wanted == Err(NO_ROOM)) {
            counts.expect_clauses(&what, sheet);
        }
        if word == "events" {
            counts.expect_as_clauses(&what, sheet, last);
            last = sheet;
        }
        if word == "events" && sheet.len() <= SHEET_BYTES {
            let (got, kept) = by_lines(sheet);
            let same = match &got {
                Ok(text) if text.len() > ROOM => wanted == Err(NO_ROOM),
                Ok(text) => wanted == Ok(text.as_slice()),
                Err(refused) => wanted == Err(*refused),
            };
            counts.count(kept && same, || {
                format!(
                    "{what}, line by line: kept {kept}, {:?}",
                    got.map(|text| text.len())
                )
            });
        }
    }
}

/// All sheets in several threads at once.
fn run_threads(sheets: &[Sheet], counts: &mut Counts) {
    let run = || {
        let mut out = vec![0; ROOM];
        let good = |sheet: &&Sheet| {
            (sheet.answer)(sheet.sheet, &mut out).map(|written| &out[..written]) == sheet.wanted
        };
        sheets.iter().filter(good).count()
    };
    std::thread::scope(|scope| {
        let threads: Vec<_> = (0..THREADS).map(|_| scope.spawn(run)).collect();
        for thread in threads {
            let passed = thread.join().expect("a thread ends");
            counts.passed += passed;
            counts.failed += sheets.len() - passed;
        }
    });
}

fn main() {
    let mut counts = Counts::default();
    refusals(&mut counts);
    whole_sheets(&mut counts);
    spoilt_registers(&mut counts);
    layout(&mut counts);
    let clause = reached(&mut counts);
    spoilt_states(&mut counts, &clause);
    single_lines(&mut counts);
    long_lines(&mut counts);
    bundle_lines(&mut counts);
    long_bundles(&mut counts);
    long_bundle_answers(&mut counts);
    for path in std::env::args().skip(1) {
        let data = std::fs::read(&path).unwrap_or_else(|error| {
            println!("{path}: {error}");
            exit(2)
        });
        let sheets = sheets_of(&path, &data);
        run_sheets(&sheets, &mut counts);
        run_threads(&sheets, &mut counts);
        println!("{} sheets of a stream", sheets.len());
    }
    println!("{} passed, {} failed", counts.passed, counts.failed);
    exit(i32::from(counts.failed != 0));
}
