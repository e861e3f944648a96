//! RESP2, the protocol of Redis: a request is an array of bulk strings, or one line of words. Everything is bounded, and nothing is copied.

/// No request has more words.
pub const MOST_WORDS: usize = 64;

/// No word is longer, in bytes.
pub const LONGEST_WORD: usize = 512;

/// No request of one line is longer, in bytes, with its line end.
pub const LONGEST_LINE: usize = 1024;

/// No request is longer, in bytes.
pub const LONGEST_REQUEST: usize = MOST_WORDS * (LONGEST_WORD + 16) + 16;

/// No number of a header has more digits.
const MOST_DIGITS: usize = 10;

/// A kind, twenty digits and a line end.
const LONGEST_HEAD: usize = 23;

/// Where a word begins and ends.
type Span = (u32, u32);

/// The words of a request.
#[derive(Clone, Copy)]
pub struct Words<'a> {
    bytes: &'a [u8],
    spans: &'a [Span],
}

impl<'a> Words<'a> {
    pub fn len(self) -> usize {
        self.spans.len()
    }

    /// The word at the place; an empty one where there is none.
    pub fn at(self, place: usize) -> &'a [u8] {
        match self.spans.get(place) {
            Some((from, to)) => &self.bytes[*from as usize..*to as usize],
            None => b"",
        }
    }

    /// The words from the place on.
    pub fn from(self, place: usize) -> Words<'a> {
        let spans = self.spans.get(place..).unwrap_or(&[]);
        Words { spans, ..self }
    }

    /// The words before the place.
    pub fn to(self, place: usize) -> Words<'a> {
        let spans = &self.spans[..place.min(self.spans.len())];
        Words { spans, ..self }
    }
}

/// What reads requests, with the room for their words.
#[derive(Default)]
pub struct Reader {
    spans: Vec<Span>,
}

/// Why bytes are no request.
type Fault = &'static str;

impl Reader {
    /// How many bytes the request at the front has; none where it is not whole yet. Its words are those of [`Reader::words`] then.
    pub fn take(&mut self, bytes: &[u8]) -> Result<Option<usize>, Fault> {
        self.spans.clear();
        match bytes.first() {
            None => Ok(None),
            Some(b'*') => self.take_array(bytes),
            Some(_) => self.take_line(bytes),
        }
    }

    /// The words of the request that was taken from the front of the bytes.
    pub fn words<'a>(&'a self, bytes: &'a [u8]) -> Words<'a> {
        let spans = &self.spans;
        Words { bytes, spans }
    }

    fn take_array(&mut self, bytes: &[u8]) -> Result<Option<usize>, Fault> {
        let fault = "invalid multibulk length";
        let Some((count, mut at)) = take_header(bytes, 1).ok_or(fault)? else {
            return Ok(None);
        };
        if count > MOST_WORDS as i64 {
            return Err(fault);
        }
        for _ in 0..count {
            let Some((from, to)) = take_bulk(bytes, at)? else {
                return Ok(None);
            };
            self.spans.push((from as u32, to as u32));
            at = to + 2;
        }
        Ok(Some(at))
    }

    /// Words with blanks between, up to the newline.
    fn take_line(&mut self, bytes: &[u8]) -> Result<Option<usize>, Fault> {
        let fault = "too big inline request";
        let front = &bytes[..bytes.len().min(LONGEST_LINE)];
        let Some(end) = front.iter().position(|it| *it == b'\n') else {
            return if front.len() < LONGEST_LINE { Ok(None) } else { Err(fault) };
        };
        let mut at = 0;
        while let Some((from, to, behind)) = next_word(&front[..end], at)? {
            self.spans.push((from as u32, to as u32));
            at = behind;
        }
        let is_long = |it: &Span| (it.1 - it.0) as usize > LONGEST_WORD;
        if self.spans.len() > MOST_WORDS || self.spans.iter().any(is_long) {
            return Err(fault);
        }
        Ok(Some(end + 1))
    }
}

/// Where the next word of a line begins and ends, and where it goes on. A word may stand in quotes, as clients have it; escapes may not.
fn next_word(line: &[u8], at: usize) -> Result<Option<(usize, usize, usize)>, Fault> {
    let is_blank = |it: &u8| matches!(it, b' ' | b'\t' | b'\r');
    let Some(first) = line[at..].iter().position(|it| !is_blank(it)).map(|it| at + it) else { return Ok(None) };
    let quote = line[first];
    if !matches!(quote, b'"' | b'\'') {
        let end = line[first..].iter().position(is_blank).map_or(line.len(), |it| first + it);
        return Ok(Some((first, end, end)));
    }
    let from = first + 1;
    let Some(to) = line[from..].iter().position(|it| *it == quote).map(|it| from + it) else {
        return Err("unbalanced quotes in request");
    };
    if line[from..to].contains(&b'\\') || line.get(to + 1).is_some_and(|it| !is_blank(it)) {
        return Err("a word in quotes has no escapes, and a blank behind it");
    }
    Ok(Some((from, to, to + 1)))
}

/// The number of `*N\r\n` or `$N\r\n` from its digits on, and where the bytes behind begin. None: it is no number; none within: it is not whole.
fn take_header(bytes: &[u8], at: usize) -> Option<Option<(i64, usize)>> {
    let is_minus = bytes.get(at) == Some(&b'-');
    let first = at + usize::from(is_minus);
    let (mut end, mut number) = (first, 0i64);
    while let Some(digit) = bytes.get(end).filter(|it| it.is_ascii_digit()) {
        if end - first >= MOST_DIGITS {
            return None;
        }
        number = number * 10 + i64::from(digit - b'0');
        end += 1;
    }
    let ends = bytes.get(end).is_none_or(|it| *it == b'\r' && end > first);
    if !ends || bytes.get(end + 1).is_some_and(|it| *it != b'\n') {
        return None;
    }
    let number = if is_minus { -number } else { number };
    Some((end + 1 < bytes.len()).then_some((number, end + 2)))
}

/// Where the bytes of one `$N\r\n..\r\n` begin and end.
fn take_bulk(bytes: &[u8], at: usize) -> Result<Option<(usize, usize)>, Fault> {
    match bytes.get(at) {
        None => return Ok(None),
        Some(b'$') => {}
        Some(_) => return Err("expected '$'"),
    }
    let fault = "invalid bulk length";
    let Some((length, from)) = take_header(bytes, at + 1).ok_or(fault)? else {
        return Ok(None);
    };
    let length = usize::try_from(length).ok().filter(|it| *it <= LONGEST_WORD);
    let to = from + length.ok_or(fault)?;
    match bytes.get(to..to + 2) {
        None => Ok(None),
        Some(b"\r\n") => Ok(Some((from, to))),
        Some(_) => Err("expected a line end"),
    }
}

/// Whether a word is that one, which is given in upper case, in any case.
pub fn is_word(word: &[u8], upper: &str) -> bool {
    word.eq_ignore_ascii_case(upper.as_bytes())
}

/// A number as scripts have it: decimal, without leading zeros, and at most so great.
pub fn number(word: &[u8], most: u64) -> Option<u64> {
    if word.is_empty() || word.len() > 20 || (word.len() > 1 && word[0] == b'0') {
        return None;
    }
    let mut value = 0u64;
    for byte in word {
        let digit = u64::from(byte.wrapping_sub(b'0'));
        if digit > 9 {
            return None;
        }
        value = value.checked_mul(10)?.checked_add(digit)?;
    }
    (value <= most).then_some(value)
}

/// A number that may be negative.
pub fn signed(word: &[u8]) -> Option<i32> {
    let value = match word.strip_prefix(b"-") {
        Some(digits) => -i64::try_from(number(digits, 1 << 31).filter(|it| *it > 0)?).ok()?,
        None => i64::try_from(number(word, i32::MAX as u64)?).ok()?,
    };
    i32::try_from(value).ok()
}

/// What an answer is written to.
pub trait Answer {
    /// A line as it is, without its end: `+OK`, `-ESRCH no-caller`.
    fn line(&mut self, text: &str);
    /// `:5`, or with another first byte `*5` or `$5`.
    fn head(&mut self, kind: u8, number: u64);
    fn bulk(&mut self, bytes: &[u8]);

    fn number(&mut self, number: u64) {
        self.head(b':', number);
    }

    fn array(&mut self, count: usize) {
        self.head(b'*', count as u64);
    }

    fn ok(&mut self);
}

impl Answer for Vec<u8> {
    fn line(&mut self, text: &str) {
        self.extend_from_slice(text.as_bytes());
        self.extend_from_slice(b"\r\n");
    }

    /// In one piece, as each answer has some.
    fn head(&mut self, kind: u8, number: u64) {
        let (mut line, mut digits) = ([kind; LONGEST_HEAD], itoa::Buffer::new());
        let digits = digits.format(number).as_bytes();
        let end = 1 + digits.len();
        line[1..end].copy_from_slice(digits);
        line[end..end + 2].copy_from_slice(b"\r\n");
        self.extend_from_slice(&line[..end + 2]);
    }

    fn ok(&mut self) {
        self.extend_from_slice(b"+OK\r\n");
    }

    fn bulk(&mut self, bytes: &[u8]) {
        self.head(b'$', bytes.len() as u64);
        self.extend_from_slice(bytes);
        self.extend_from_slice(b"\r\n");
    }
}

#[cfg(test)]
mod tests {
    use super::*;

    fn words(bytes: &[u8]) -> Result<Option<(usize, Vec<Vec<u8>>)>, Fault> {
        let mut reader = Reader::default();
        let taken = reader.take(bytes)?;
        let words = reader.words(bytes);
        let all = (0..words.len()).map(|place| words.at(place).to_vec());
        Ok(taken.map(|size| (size, all.collect())))
    }

    /// By the page "Redis serialization protocol specification".
    #[test]
    fn requests_of_the_protocol() {
        let bytes = b"*2\r\n$4\r\nLLEN\r\n$6\r\nmylist\r\nPING\r\n";
        let wanted = vec![b"LLEN".to_vec(), b"mylist".to_vec()];
        assert_eq!(words(bytes), Ok(Some((26, wanted))));
        assert_eq!(words(b"PING\r\n"), Ok(Some((6, vec![b"PING".to_vec()]))));
        assert_eq!(words(b" a  b \n"), Ok(Some((7, vec![b"a".to_vec(), b"b".to_vec()]))));
        let quoted = vec![b"a b".to_vec(), b"".to_vec(), b"x\"y".to_vec()];
        assert_eq!(words(b"\"a b\" '' x\"y\r\n"), Ok(Some((14, quoted))));
        assert_eq!(words(b"*0\r\n"), Ok(Some((4, vec![]))));
        assert_eq!(words(b"*-1\r\n"), Ok(Some((5, vec![]))));
        assert_eq!(words(b"*1\r\n$0\r\n\r\n"), Ok(Some((10, vec![vec![]]))));
    }

    #[test]
    fn each_front_is_not_whole() {
        let bytes = b"*3\r\n$4\r\nFORK\r\n$1\r\n1\r\n$3\r\nNEW\r\n";
        for size in 0..bytes.len() {
            assert_eq!(words(&bytes[..size]), Ok(None), "{size}");
        }
    }

    #[test]
    fn what_is_no_request() {
        let long = [b'x'; LONGEST_LINE];
        let wrong: [&[u8]; 15] = [
            b"\"a\n",
            b"'a'b\n",
            b"\"a\\\"b\"\n",
            b"*x\r\n",
            b"*65\r\n",
            b"*\r\n",
            b"*1\rx",
            b"*12345678901\r\n",
            b"*1\r\nx",
            b"*1\r\n$-1\r\n",
            b"*1\r\n$513\r\n",
            b"*1\r\n$x\r\n",
            b"*1\r\n$1\r\nxyz",
            b"*1\r\n$1\r\nx\ry",
            &long,
        ];
        for bytes in wrong {
            assert!(words(bytes).is_err(), "{}", String::from_utf8_lossy(bytes));
        }
    }

    /// A request with some bytes changed, dropped or added, by xorshift64.
    fn mutated(seed: &mut u64) -> Vec<u8> {
        let mut draw = |below: usize| {
            *seed ^= *seed << 13;
            *seed ^= *seed >> 7;
            *seed ^= *seed << 17;
            (*seed % below as u64) as usize
        };
        let alphabet = b"*$-0123456789\r\n FORKforkNEW\0\xff";
        let mut bytes = format!("*{}\r\n", draw(5)).into_bytes();
        for _ in 0..draw(5) {
            let word = "FORK 1 NEW".repeat(draw(4));
            bytes.extend(format!("${}\r\n{word}\r\n", word.len()).bytes());
        }
        for _ in 0..draw(6) {
            let place = draw(bytes.len());
            let added: Vec<_> = (0..draw(3)).map(|_| alphabet[draw(alphabet.len())]).collect();
            let end = bytes.len().min(place + draw(3));
            bytes.splice(place..end, added);
            bytes.push(alphabet[draw(alphabet.len())]);
        }
        bytes
    }

    fn given(name: &str, usual: u64) -> u64 {
        std::env::var(name).ok().and_then(|it| it.parse().ok()).unwrap_or(usual)
    }

    /// A fifth of a million inputs, or as many as there are in PARSER_SECONDS, from PARSER_SEED on: no request is longer than its bytes, each word is
    /// within it, and each front of a whole request is not whole, so that pieces make no difference.
    #[test]
    fn mutated_requests() {
        let (seconds, mut seed) = (given("PARSER_SECONDS", 0), given("PARSER_SEED", 0x9e37_79b9_7f4a_7c15));
        let (began, mut count, mut whole) = (std::time::Instant::now(), 0u64, 0u64);
        let mut reader = Reader::default();
        while count < 200_000 || began.elapsed().as_secs() < seconds {
            let bytes = mutated(&mut seed);
            count += 1;
            let Ok(Some(size)) = reader.take(&bytes) else { continue };
            whole += 1;
            assert!(size <= bytes.len() && reader.spans.len() <= MOST_WORDS);
            let is_within = |it: &Span| it.0 <= it.1 && it.1 as usize <= size && (it.1 - it.0) as usize <= LONGEST_WORD;
            assert!(reader.spans.iter().all(is_within), "{bytes:?}");
            let front = seed as usize % size;
            assert_eq!(reader.take(&bytes[..front]), Ok(None), "{front} of {bytes:?}");
        }
        println!("{count} inputs, {whole} whole");
        assert!(whole > count / 10);
    }

    #[test]
    fn numbers_as_scripts_have_them() {
        assert_eq!(number(b"0", 9), Some(0));
        assert_eq!(number(b"18446744073709551615", u64::MAX), Some(u64::MAX));
        assert_eq!(number(b"18446744073709551616", u64::MAX), None);
        let wrong: [&[u8]; 7] = [b"", b"01", b"+1", b"-1", b"1 ", b"x", b"10"];
        assert!(wrong.iter().all(|it| number(it, 9).is_none()));
        assert_eq!(signed(b"-2147483648"), Some(i32::MIN));
        assert_eq!(signed(b"2147483647"), Some(i32::MAX));
        let wrong: [&[u8]; 6] = [b"-0", b"--1", b"-", b"2147483648", b"-2147483649", b"-01"];
        assert!(wrong.iter().all(|it| signed(it).is_none()));
    }
}
