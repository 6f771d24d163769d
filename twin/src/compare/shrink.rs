//! The smallest trace that still differs: whole blocks are left out, then lines,
//! numbers become 0, and bytes are left out, as long as that helps.

use std::collections::BTreeSet;
use std::time::{Duration, Instant};

/// Most tries and longest time for one trace.
const TRIES: usize = 4000;
const TIME: Duration = Duration::from_secs(60);

/// The smallest trace found of which `differs` is true, as it is of the given one.
pub fn shrink(trace: Vec<u8>, differs: impl FnMut(&[u8]) -> bool) -> Vec<u8> {
    let mut search = Search {
        differs,
        tries: 0,
        end: Instant::now() + TIME,
    };
    let mut smallest = trace;
    loop {
        let before = smallest.clone();
        smallest = search.lighten(blocks(&smallest), |_| Vec::new());
        smallest = search.lighten(lines(&smallest), |_| Vec::new());
        smallest = search.lower(lines(&smallest));
        smallest = search.lighten(lines(&smallest), lowered);
        smallest = search.lighten(bytes(&smallest), |_| Vec::new());
        if smallest == before {
            return smallest;
        }
    }
}

struct Search<Test> {
    differs: Test,
    tries: usize,
    end: Instant,
}

impl<Test: FnMut(&[u8]) -> bool> Search<Test> {
    fn is_over(&self) -> bool {
        self.tries >= TRIES || Instant::now() >= self.end
    }

    fn differs(&mut self, pieces: &[&[Vec<u8>]]) -> bool {
        self.tries += 1;
        (self.differs)(&pieces.concat().concat())
    }

    /// Makes pieces lighter where the trace still differs: all of them at once, then
    /// halves, down to single ones. A piece of no bytes is left out.
    fn lighten(&mut self, mut pieces: Vec<Vec<u8>>, lighter: fn(&[u8]) -> Vec<u8>) -> Vec<u8> {
        let mut length = pieces.len();
        while length > 0 {
            let mut start = 0;
            while start < pieces.len() && !self.is_over() {
                let end = pieces.len().min(start + length);
                let heavy = &pieces[start..end];
                let mut light: Vec<Vec<u8>> = heavy.iter().map(|piece| lighter(piece)).collect();
                light.retain(|piece| !piece.is_empty());
                if light != heavy && self.differs(&[&pieces[..start], &light, &pieces[end..]]) {
                    let kept = light.len();
                    pieces.splice(start..end, light);
                    start += kept;
                } else {
                    start = end;
                }
            }
            length /= 2;
        }
        pieces.concat()
    }

    /// Makes a number 0 on all lines that are equal, for each such line in turn.
    fn lower(&mut self, mut lines: Vec<Vec<u8>>) -> Vec<u8> {
        for line in BTreeSet::from_iter(lines.clone()) {
            let zero = lowered(&line);
            if zero != line && !self.is_over() {
                let mut candidate = lines.clone();
                candidate
                    .iter_mut()
                    .filter(|one| **one == line)
                    .for_each(|one| *one = zero.clone());
                if self.differs(&[&candidate]) {
                    lines = candidate;
                }
            }
        }
        lines.concat()
    }
}

/// The line with 0 for its number; another line as it is.
fn lowered(line: &[u8]) -> Vec<u8> {
    let sign = line
        .iter()
        .position(|&byte| byte == b'=')
        .map_or(0, |place| place + 1);
    match line[sign..].strip_suffix(b"\n") {
        Some(digits) if !digits.is_empty() && digits.iter().all(u8::is_ascii_digit) => {
            [&line[..sign], b"0\n"].concat()
        }
        _ => line.to_vec(),
    }
}

/// The blocks, each from its op line on; what precedes the first is a piece too.
pub fn blocks(trace: &[u8]) -> Vec<Vec<u8>> {
    let mut blocks: Vec<Vec<u8>> = Vec::new();
    for line in lines(trace) {
        match blocks.last_mut() {
            Some(block) if !line.starts_with(b"op=") => block.extend(line),
            _ => blocks.push(line),
        }
    }
    blocks
}

/// The lines, each with its line feed; the last one may lack it.
pub fn lines(trace: &[u8]) -> Vec<Vec<u8>> {
    trace
        .split_inclusive(|&byte| byte == b'\n')
        .map(<[u8]>::to_vec)
        .collect()
}

fn bytes(trace: &[u8]) -> Vec<Vec<u8>> {
    trace.iter().map(|&byte| vec![byte]).collect()
}

#[cfg(test)]
mod tests {
    use super::shrink;

    #[test]
    fn only_what_matters_is_left() {
        let trace = b"op=count\nop=revoke\nid=07\nop=read\nlease=3\nop=count\n".repeat(20);
        let found = shrink(trace, |trace| trace.windows(4).any(|part| part == b"=07\n"));
        assert_eq!(found, b"=07\n");
    }

    #[test]
    fn numbers_become_0_together() {
        let trace = b"op=release\nlease=17\nop=count\nop=read\nlease=17\n".to_vec();
        let found = shrink(trace, |trace| {
            let lines: Vec<&[u8]> = trace.split(|&byte| byte == b'\n').collect();
            matches!(lines.as_slice(), [_, one, .., two, _] if one == two && one.len() > 6)
        });
        assert_eq!(found, b"\nlease=0\nlease=0\n");
    }

    #[test]
    fn a_trace_of_which_all_matters_is_kept() {
        let trace = b"op=count\n".repeat(9);
        let found = shrink(trace.clone(), |candidate| candidate == trace);
        assert_eq!(found, trace);
    }

    #[test]
    fn the_empty_trace_is_found() {
        assert_eq!(shrink(b"op=count\n".to_vec(), |_| true), b"");
    }
}
