//! The files of cases that `DRIFTHURDLE_CASES` names, joined by `:`, in the form that `oracle gen` and `oracle mutate`
//! write.

/// Numbers of a case, and its sheet.
pub type Case<'a> = (Vec<usize>, &'a [u8]);

/// Takes a line `word number number ..` and as many bytes as the last number says off a file of cases.
fn case<'a>(rest: &mut &'a [u8]) -> Option<Case<'a>> {
    let end = rest.iter().position(|byte| *byte == b'\n')?;
    let line = std::str::from_utf8(&rest[..end]).ok()?;
    let numbers: Vec<usize> = line.split(' ').skip(1).map(|n| n.parse().ok()).collect::<Option<_>>()?;
    let sheet = end + 1..end + 1 + numbers.last()?;
    let bytes = rest.get(sheet.clone())?;
    *rest = &rest[sheet.end + 1..];
    Some((numbers, bytes))
}

/// Hands over every file with its cases.
pub fn each_file(mut run: impl FnMut(&str, Vec<Case<'_>>)) {
    let names = std::env::var("DRIFTHURDLE_CASES").unwrap_or_default();
    for name in names.split(':').filter(|name| !name.is_empty()) {
        let file = std::fs::read(name).unwrap();
        let mut rest = &file[..];
        let cases: Vec<Case<'_>> = std::iter::from_fn(|| case(&mut rest)).collect();
        assert!(rest.is_empty() && !cases.is_empty());
        run(name, cases);
    }
}
