//! `--vectors DIR`: runs each verdict-*.in, console-*.in and c19-*.in and compares with the .out beside it.

use crate::{console, records};
use std::path::{Path, PathBuf};
use std::{fs, io};

/// Whether all agreed.
pub fn check(folder: &Path) -> io::Result<bool> {
    let mut inputs: Vec<PathBuf> = fs::read_dir(folder)?
        .map(|entry| Ok(entry?.path()))
        .collect::<io::Result<Vec<_>>>()?
        .into_iter()
        .filter(|path| path.extension().is_some_and(|e| e == "in"))
        .collect();
    inputs.sort();
    let mut all = true;
    for path in &inputs {
        let name = path.file_stem().unwrap_or_default().to_string_lossy().into_owned();
        let program: fn(&[u8]) -> Vec<u8> = if name.starts_with("verdict-") {
            records::verdicts
        } else if name.starts_with("console-") {
            |script| without_off(console::answers(script))
        } else if name.starts_with("c19-") {
            console::answers
        } else {
            continue;
        };
        let got = program(&fs::read(path)?);
        let wanted = fs::read(path.with_extension("out"))?;
        let agrees = got == wanted;
        all &= agrees;
        println!("{name}: {}", if agrees { "agrees".to_owned() } else { first_difference(&got, &wanted) });
    }
    println!("{} files, {}", inputs.len(), if all { "all agree" } else { "NOT all agree" });
    Ok(all)
}

/// What was printed before C-19, which has no mark.
fn without_off(printed: Vec<u8>) -> Vec<u8> {
    String::from_utf8_lossy(&printed).replace(" off at ", " at ").into_bytes()
}

pub fn first_difference(got: &[u8], wanted: &[u8]) -> String {
    let (mut got, mut wanted) = (got.split(|&b| b == b'\n'), wanted.split(|&b| b == b'\n'));
    for line in 1.. {
        let (g, w) = (got.next(), wanted.next());
        if g != w || (g.is_none() && w.is_none()) {
            let show = |l: Option<&[u8]>| l.map_or("(end)".into(), |l| String::from_utf8_lossy(l).into_owned());
            return format!("line {line}: got `{}`, wanted `{}`", show(g), show(w));
        }
    }
    unreachable!()
}
