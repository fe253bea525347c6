//! The command `oracle`: hands the linked library, if any, to the judge.

#[cfg(linked)]
mod library {
    unsafe extern "C" {
        pub fn drifthurdle_clean(
            sheet: *const u8,
            sheet_len: usize,
            level: u32,
            sweep: u32,
            out: *mut u8,
            out_len: usize,
        ) -> i64;
    }
    pub const CLEAN: Option<judge::Clean> = Some(drifthurdle_clean);
}

#[cfg(not(linked))]
mod library {
    pub const CLEAN: Option<judge::Clean> = None;
}

fn main() {
    judge::cli::main(library::CLEAN);
}
