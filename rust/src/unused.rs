//! That a reply or a length is not dropped unseen: for each function, a call of it alone is refused where unused results
//! are, and the same call with its answer taken is not. Only the documentation tests see this file.

macro_rules! must_be_used {
    ($name:ident, $call:literal) => {
        #[doc = concat!("```compile_fail\n#![deny(unused_must_use)]\n", $call, ";\n```")]
        #[doc = concat!("```\n#![deny(unused_must_use)]\nlet _ = ", $call, ";\n```")]
        pub struct $name;
    };
}

must_be_used!(Count, "drainage::count(1, 1, &[1], &mut [0])");
must_be_used!(Check, "drainage::check(1, 1, &[1], &[1])");
must_be_used!(Mend, "drainage::mend(1, 1, &mut [1], &mut [1], 0, 2)");
must_be_used!(
    Record,
    "drainage::record(1, 1, 0, 0, &[1], &mut [0; 24], [&mut [0], &mut [0]])"
);
must_be_used!(
    Join,
    "drainage::join(0, 0, &[], &mut [], [&mut [], &mut [], &mut [], &mut [], &mut []])"
);
must_be_used!(
    Finish,
    "drainage::finish(1, 1, &[1], &[0], &mut [0], &mut [0])"
);
must_be_used!(
    Raw,
    "unsafe { drainage::raw::drainage_count(1, 1, [1].as_ptr(), 1, [0].as_mut_ptr(), 1) }"
);
must_be_used!(BorderCells, "drainage::border_cells(1, 1)");
must_be_used!(RecordLen, "drainage::record_len(1, 1)");
must_be_used!(RecordWork, "drainage::record_work(1, 1)");
must_be_used!(JoinWork, "drainage::join_work(1)");
must_be_used!(FinishWork, "drainage::finish_work(1, 1)");
must_be_used!(Version, "drainage::version()");
