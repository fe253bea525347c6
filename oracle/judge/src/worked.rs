//! Document 01's worked cases C1 to C11, with what it says of each; with request 2 as
//! that changes them.

use crate::frames::{Case, to_rows};
use crate::requests;
use crate::run::call;

const C1: [&str; 8] = [
    "slots,1",
    "reg,0,0,0",
    "class,0,1,0",
    "value,0,0",
    "block,0,3,-,1",
    "op,0,def,0,c0,r0",
    "op,1,use,0,c0,s0",
    "edit,1,move,s0,r0,0",
];

pub struct Worked {
    pub name: String,
    pub case: Case,
    pub want: Result<String, u32>,
}

pub fn all() -> Vec<Worked> {
    let mut l = vec![];
    let tenth = if requests::recipes() { ",0\r\n" } else { "\r\n" };
    let mut add = |name: &str, rows: &[&str], level, sweep, cap, want: Result<&str, u32>| {
        let sheet = rows.iter().map(|r| format!("{r}\r\n")).collect::<String>().into_bytes();
        let want = want.map(|text| text.strip_suffix("\r\n").unwrap().to_string() + tenth);
        l.push(Worked { name: name.into(), case: Case { level, sweep, cap, sheet }, want })
    };
    let c1 = "fold,1,0,r0\r\nedit,1,none,-,-,-\r\ncount,0,0,0,0,0,0,1,1,0\r\n";
    let kept0 = "edit,1,move,s0,r0,0\r\ncount,0,0,0,0,0,0,0,0,0\r\n";
    add("C1", &C1, 1, 1, 65_536, Ok(c1));
    add("C2", &C1, 0, 1, 65_536, Ok(kept0));
    add(
        "C3",
        &C1,
        1,
        0,
        65_536,
        Ok("fold,1,0,r0\r\nedit,1,move,s0,r0,0\r\ncount,0,0,0,0,0,0,1,0,0\r\n"),
    );
    add("C4", &[], 1, 1, 65_536, Err(1));
    add("C5", &C1, 4, 1, 65_536, Err(7));
    add("C5 (empty sheet)", &[], 4, 1, 65_536, Err(7));
    let len = 55 + tenth.len();
    add(&format!("C6 {}", len - 1), &C1, 1, 1, len - 1, Err(8));
    add(&format!("C6 {len}"), &C1, 1, 1, len, Ok(c1));
    let mut c7 = C1;
    c7[2] = "class,0,0,0";
    add("C7", &c7, 1, 1, 65_536, Err(5));
    let c8 =
        [C1[0], C1[1], C1[2], C1[3], "value,1,-", C1[4], C1[5], C1[6], "op,1,def,1,u0,s0", C1[7]];
    add("C8", &c8, 1, 1, 65_536, Ok(kept0));
    let c9 = ["slots,2", C1[1], C1[2], C1[3], C1[4], C1[5], C1[7], "edit,1,move,s1,s0,0"];
    add(
        "C9",
        &c9,
        0,
        1,
        65_536,
        Ok("edit,1,none,-,-,-\r\nedit,1,none,-,-,-\r\ncount,0,0,0,0,0,0,0,2,0\r\n"),
    );
    let c10 = [C1[0], C1[1], C1[2], C1[3], C1[4], C1[5], C1[6], C1[7], "edit,1,move,s0,s0,0"];
    add(
        "C10",
        &c10,
        0,
        1,
        65_536,
        Ok("edit,1,move,s0,r0,0\r\nedit,1,move,s0,s0,0\r\ncount,0,0,0,0,0,0,0,0,0\r\n"),
    );
    let mut c11 = C1;
    c11[0] = "slots,65";
    add("C11 65", &c11, 1, 1, 65_536, Err(2));
    c11[0] = "slots,64";
    add("C11 64", &c11, 1, 1, 65_536, Ok(c1));
    l
}

/// True if every case comes out as the paper says.
pub fn check() -> bool {
    let mut good = true;
    for w in all() {
        let got = call(&w.case);
        let ok = got == w.want.clone().map(|s| s.into_bytes());
        good &= ok;
        let short = match &got {
            Ok(b) => format!("{} bytes", b.len()),
            Err(n) => format!("-{n}"),
        };
        println!("{:18} {short:9} {}", w.name, if ok { "as in 01" } else { "DIFFERS" });
        if !ok {
            println!("  got  {:?}", got.map(|b| to_rows(&b)));
            println!("  want {:?}", w.want);
        }
    }
    good
}
