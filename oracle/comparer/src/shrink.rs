//! Makes a failing input small: lines are left out, then fields are made simple, as long as the two sides still differ.

/// `differs` says whether the two sides differ on these lines.
pub fn shrink(lines: Vec<String>, mut differs: impl FnMut(&[String]) -> bool) -> Vec<String> {
    let mut best = fewer_lines(lines, &mut differs);
    loop {
        let before = best.clone();
        best = simpler_fields(best, &mut differs);
        best = fewer_lines(best, &mut differs);
        if best == before {
            return best;
        }
    }
}

fn fewer_lines(mut best: Vec<String>, differs: &mut impl FnMut(&[String]) -> bool) -> Vec<String> {
    let mut chunk = (best.len() / 2).max(1);
    loop {
        let mut from = 0;
        let mut left_out = false;
        while from < best.len() {
            let to = (from + chunk).min(best.len());
            let mut tried = best.clone();
            tried.drain(from..to);
            if !tried.is_empty() && differs(&tried) {
                best = tried;
                left_out = true;
            } else {
                from = to;
            }
        }
        if chunk == 1 && !left_out {
            return best;
        }
        chunk = (chunk / 2).max(1);
    }
}

fn simpler_fields(mut best: Vec<String>, differs: &mut impl FnMut(&[String]) -> bool) -> Vec<String> {
    let mut line = 0;
    while line < best.len() {
        // the last fields of a long line go first
        while best[line].matches('\t').count() > 4 {
            let mut tried = best.clone();
            let cut = tried[line].rfind('\t').expect("a tab");
            tried[line].truncate(cut);
            if !differs(&tried) {
                break;
            }
            best = tried;
        }
        let count = best[line].split('\t').count();
        for at in 1..count {
            for simple in ["0", "1", "64", "10000", "20000", "ffffffff"] {
                let mut fields: Vec<&str> = best[line].split('\t').collect();
                if fields[at].len() < simple.len() || fields[at] == simple || ["0", "1"].contains(&fields[at]) {
                    continue;
                }
                fields[at] = simple;
                let mut tried = best.clone();
                tried[line] = fields.join("\t");
                if differs(&tried) {
                    best = tried;
                    break;
                }
            }
        }
        line += 1;
    }
    best
}
