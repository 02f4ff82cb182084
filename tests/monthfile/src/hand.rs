//! A scanner of the month file as one writes it by hand in Rust, to compare with and to time beside: it goes down the format and gives
//! the place where a file cannot go on.

type Passed = Result<usize, usize>;

fn byte(text: &[u8], at: usize, wanted: u8) -> Passed {
    if at < text.len() && text[at] == wanted {
        Ok(at + 1)
    } else {
        Err(at)
    }
}

/// LF or CR LF, the latter apart so that text in LF loses nothing by it.
fn line_end(text: &[u8], at: usize) -> Passed {
    if at < text.len() && text[at] == b'\n' {
        return Ok(at + 1);
    }
    cr_lf(text, at)
}

#[cold]
fn cr_lf(text: &[u8], at: usize) -> Passed {
    byte(text, at, b'\r').and_then(|at| byte(text, at, b'\n'))
}

fn names(text: &[u8], mut at: usize, names: &[u8]) -> Passed {
    for &wanted in names {
        at = byte(text, at, wanted)?;
    }
    line_end(text, at)
}

fn value(text: &[u8], mut at: usize) -> Passed {
    let negative = at < text.len() && text[at] == b'-';
    at += negative as usize;
    if at >= text.len() {
        return Err(at);
    }
    match text[at] {
        b'0' if !negative => return Ok(at + 1),
        b'1'..=b'9' => {}
        _ => return Err(at),
    }
    let end = (at + 18).min(text.len());
    at += 1;
    while at < end && text[at].is_ascii_digit() {
        at += 1;
    }
    Ok(at)
}

fn line(text: &[u8], mut at: usize, columns: usize) -> Passed {
    for column in 0..columns {
        at = value(text, at)?;
        at = if column + 1 < columns { byte(text, at, b',')? } else { line_end(text, at)? };
    }
    Ok(at)
}

fn block(text: &[u8], mut at: usize, its_names: &[u8], columns: usize) -> Passed {
    at = names(text, at, its_names)?;
    while at < text.len() && (text[at] == b'-' || text[at].is_ascii_digit()) {
        at = line(text, at, columns)?;
    }
    Ok(at)
}

fn file(text: &[u8], mut at: usize) -> Passed {
    at = names(text, at, b"month,ons")?;
    at = line(text, at, 2)?;
    at = block(text, at, b"agent,pb,pv,afs,rfs,pa,ret", 7)?;
    at = block(text, at, b"user,kind,ret,ong", 4)?;
    at = block(text, at, b"at,tp,tf,dp,df,mp,mf,vp,vf", 9)?;
    if at == text.len() || text[at] == b'm' {
        Ok(at)
    } else {
        Err(at)
    }
}

/// −1 for one or more files on end, else the place where they cannot go on.
#[inline(never)]
pub fn check(text: &[u8]) -> i64 {
    let mut at = 0;
    loop {
        match file(text, at) {
            Ok(next) if next == text.len() => return -1,
            Ok(next) => at = next,
            Err(place) => return place as i64,
        }
    }
}
