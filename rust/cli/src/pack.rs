//! `pack`: a text form to a pool file.
use crate::console::{print, shown};
use crate::options::Pack;
use crate::{files, Failure, Outcome};
use std::path::PathBuf;
use tilusorgu::text::{self, Packed};

pub fn pack(pack: &Pack) -> Result<Outcome, Failure> {
    let out = target(pack)?;
    files::apart(&pack.file, &out)?;
    let typed = files::read_text(&pack.file)?;
    let packed = text::pack(&typed, pack.sharing).map_err(|m| Failure::Trouble(format!("{}:{m}", files::name(&pack.file))))?;
    files::write_pool(&out, &packed.pool)?;
    if !files::is_standard(&out) {
        print(&report(&shown(&out.to_string_lossy()), &packed))?;
    }
    Ok(Outcome::Done)
}

/// Where the pool goes: where it was asked for, or beside the text.
fn target(pack: &Pack) -> Result<PathBuf, Failure> {
    let out = match &pack.out {
        Some(out) => return Ok(out.clone()),
        None if files::is_standard(&pack.file) => return Ok(PathBuf::from("-")),
        None => pack.file.with_extension("pool"),
    };
    if out == pack.file {
        return Err(Failure::Usage(format!("{} would be written over: name the pool file with -o", files::name(&out))));
    }
    Ok(out)
}

fn report(out: &str, packed: &Packed) -> String {
    let mut lines = format!("{out}: {}\n", packed.pool.counted());
    for (short, row) in &packed.defined {
        lines += &format!("{}: expression row {row}\n", shown(short));
    }
    lines
}
