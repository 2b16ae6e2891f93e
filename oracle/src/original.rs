//! The original's files, compiled as they stand in the folder `SCRYER_SOURCE`.

macro_rules! original {
    ($file:literal) => {
        include!(concat!(env!("SCRYER_SOURCE"), "/", $file));
    };
}

pub(crate) mod allocator {
    original!("allocator.rs");
}

pub(crate) mod debray_allocator {
    use crate::shims::bitvec;

    original!("debray_allocator.rs");

    // A child of this module may read the allocator's private fields.
    mod view;
}

#[expect(dead_code, reason = "marks make variables and moves only")]
pub(crate) mod targets {
    original!("targets.rs");
}

#[expect(dead_code, reason = "records are added one by one")]
pub(crate) mod variable_records {
    use crate::shims::num_order;

    original!("variable_records.rs");
}
