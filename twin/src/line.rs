//! A line of the script: a word, then numbers, then at most one hex token.

const MOST_NUMBERS: usize = 740;
const MOST_BYTES: usize = 1_000;

#[derive(Debug, PartialEq, Eq)]
pub struct Line<'a> {
    pub word: &'a [u8],
    pub numbers: Vec<u32>,
    pub hex: Option<Vec<u8>>,
}

/// None if the line has another form.
pub fn parse(line: &[u8]) -> Option<Line<'_>> {
    let mut tokens = line.split(|&byte| byte == b' ');
    let word = tokens.next()?;
    let mut rest: Vec<&[u8]> = tokens.collect();
    let hex = match rest.last() {
        Some(token) if token.first() == Some(&b'x') => {
            let bytes = hex_token(token)?;
            rest.pop();
            Some(bytes)
        }
        _ => None,
    };
    if rest.len() > MOST_NUMBERS {
        return None;
    }
    let numbers = rest.into_iter().map(number).collect::<Option<Vec<u32>>>()?;
    Some(Line { word, numbers, hex })
}

fn number(token: &[u8]) -> Option<u32> {
    if !(1..=10).contains(&token.len()) || !token.iter().all(u8::is_ascii_digit) {
        return None;
    }
    let value = token
        .iter()
        .fold(0u64, |sum, &digit| sum * 10 + u64::from(digit - b'0'));
    u32::try_from(value).ok()
}

fn hex_token(token: &[u8]) -> Option<Vec<u8>> {
    let digits = token.strip_prefix(b"x")?;
    if digits.len() % 2 != 0 || digits.len() > 2 * MOST_BYTES {
        return None;
    }
    digits
        .chunks(2)
        .map(|pair| Some(digit(pair[0])? << 4 | digit(pair[1])?))
        .collect()
}

fn digit(byte: u8) -> Option<u8> {
    match byte {
        b'0'..=b'9' => Some(byte - b'0'),
        b'a'..=b'f' => Some(byte - b'a' + 10),
        _ => None,
    }
}
