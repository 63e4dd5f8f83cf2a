//! The lines of a text that comes in parts: those of `lines`, wherever it is cut, and a line of more than 65,536 bytes refused once.

use std::{
    collections::VecDeque,
    error::Error,
    fmt,
    io::{self, ErrorKind, Read},
};

use gff3_lines::{Line, Parts, ReadError, Reader, Refusal, lines};

/// A line that is handed out, or a refusal.
type Answer = Result<Vec<u8>, Refusal>;

const MOST: usize = 65_536;

/// What the rules say of a whole text.
fn expected(text: &[u8]) -> Vec<Answer> {
    let limited = |line: Line| match line.bytes().len() {
        0..=MOST => Ok(line.bytes().to_vec()),
        _ => Err(Refusal::LineTooLong),
    };
    lines(text).map(limited).collect()
}

fn owned(line: Result<Line, Refusal>) -> Answer {
    line.map(|line| line.bytes().to_vec())
}

/// What is handed out while one part is taken: no more than it has bytes.
fn taken(parts: &mut Parts, mut part: &[u8]) -> Vec<Answer> {
    let most = part.len();
    let mut answers = Vec::new();
    while let Some(line) = parts.take(&mut part) {
        answers.push(owned(line));
        assert!(answers.len() <= most, "{answers:?}");
    }
    assert_eq!(part, b"");
    answers
}

/// What is handed out of a text that comes in these parts.
fn by_parts(parts: &mut Parts, text: &[&[u8]]) -> Vec<Answer> {
    let mut answers: Vec<_> = text.iter().flat_map(|part| taken(parts, part)).collect();
    answers.extend(parts.end().map(owned));
    answers
}

/// What a reader hands out up to its first `None`, of a text of a few lines. An input that fails ends the test.
fn by_reader(reader: &mut Reader<impl Read>) -> Vec<Answer> {
    let mut answers = Vec::new();
    while let Some(line) = reader.next_line() {
        answers.push(match line {
            Ok(line) => Ok(line.bytes().to_vec()),
            Err(ReadError::Refused(refusal)) => Err(refusal),
            Err(ReadError::Io(error)) => panic!("{error}"),
        });
        assert!(answers.len() < 10, "{answers:?}");
    }
    answers
}

/// Every text of so many bytes out of CR, LF, space and `a`.
fn texts(length: u32) -> impl Iterator<Item = Vec<u8>> {
    (0..4_usize.pow(length)).map(move |number| (0..length).map(|i| b"\r\n a"[number >> (2 * i) & 3]).collect())
}

/// The text, cut behind each byte whose bit is set.
fn cut(text: &[u8], cuts: usize) -> Vec<&[u8]> {
    let places: Vec<_> = (1..text.len()).filter(|i| cuts >> (i - 1) & 1 == 1).collect();
    let starts = [0].into_iter().chain(places.iter().copied());
    let ends = places.iter().copied().chain([text.len()]);
    starts.zip(ends).map(|(start, end)| &text[start..end]).collect()
}

/// What an input does when it is asked: it gives bytes, fails, or ends where none is left.
enum Step {
    Gives(Vec<u8>),
    Fails(ErrorKind),
    Ends,
}

/// An input that does one step for each time that it is asked. Behind the last step it has ended.
#[derive(Default)]
struct Script {
    steps: VecDeque<Step>,
    asked: usize,
}

impl Script {
    fn new(steps: impl IntoIterator<Item = Step>) -> Self {
        Script {
            steps: steps.into_iter().collect(),
            asked: 0,
        }
    }
}

impl Read for Script {
    fn read(&mut self, buffer: &mut [u8]) -> io::Result<usize> {
        self.asked += 1;
        match self.steps.pop_front() {
            Some(Step::Gives(bytes)) => {
                buffer[..bytes.len()].copy_from_slice(&bytes);
                Ok(bytes.len())
            }
            Some(Step::Fails(kind)) => Err(kind.into()),
            Some(Step::Ends) | None => Ok(0),
        }
    }
}

fn gives(bytes: &[u8]) -> Step {
    Step::Gives(bytes.to_vec())
}

#[test]
fn every_cut_of_a_text_gives_its_lines() {
    let mut parts = Parts::new();
    for text in (0..=6).flat_map(texts) {
        let expected = expected(&text);
        for cuts in 0..1 << text.len().saturating_sub(1) {
            let cut = cut(&text, cuts);
            assert_eq!(by_parts(&mut parts, &cut), expected, "{cut:?}");
        }
    }
}

/// The number and the bytes of each line, counted by hand: a line feed ends a line, and a line without a byte is blank.
fn numbered(text: &[u8]) -> Vec<(u64, Vec<u8>)> {
    let mut cut: Vec<_> = text.split(|&byte| byte == b'\n').map(<[u8]>::to_vec).collect();
    let ended = cut.len() - 1;
    for line in &mut cut[..ended] {
        if line.ends_with(b"\r") {
            line.pop();
        }
    }
    (1..).zip(cut).filter(|(_, line)| !line.is_empty()).collect()
}

#[test]
fn every_line_has_its_number() {
    let mut parts = Parts::new();
    for text in (0..=6).flat_map(texts) {
        let expected = numbered(&text);
        for cuts in 0..1 << text.len().saturating_sub(1) {
            let mut seen = Vec::new();
            for mut part in cut(&text, cuts) {
                while parts.take(&mut part).is_some() {
                    seen.push((parts.number(), parts.line().bytes().to_vec()));
                }
                assert_eq!(parts.line(), Line(b""));
            }
            if parts.end().is_some() {
                seen.push((parts.number(), parts.line().bytes().to_vec()));
            }
            assert_eq!(seen, expected, "{:?}", cut(&text, cuts));
        }
    }
}

#[test]
fn a_reader_has_the_number_of_a_line_that_is_refused_too() {
    let text = [b"\n#\r\n", &[b'a'; MOST + 1][..], b"\r\n\n\nb"].concat();
    let mut reader = Reader::with_capacity(100, &text[..]);
    let mut seen = Vec::new();
    while let Some(line) = reader.next_line() {
        let length = line.map(|line| line.bytes().len()).ok();
        assert_eq!(reader.line().bytes().len(), length.unwrap_or(0));
        seen.push((reader.number(), length, reader.is_cut()));
    }
    assert_eq!(seen, [(2, Some(1), false), (3, None, false), (6, Some(1), true)]);
}

#[test]
fn empty_parts_change_nothing() {
    let mut parts = Parts::new();
    for text in texts(5) {
        let empty: &[u8] = b"";
        let with_empty: Vec<_> = text.chunks(1).flat_map(|part| [empty, part, empty]).collect();
        assert_eq!(by_parts(&mut parts, &with_empty), expected(&text), "{text:?}");
    }
}

#[test]
fn a_reader_gives_the_same_lines_by_any_buffer() {
    for text in (0..=5).flat_map(texts) {
        for capacity in [0, 1, 2, 3, 100] {
            let mut reader = Reader::with_capacity(capacity, &text[..]);
            assert_eq!(by_reader(&mut reader), expected(&text), "{text:?} by {capacity}");
        }
        assert_eq!(by_reader(&mut Reader::new(&text[..])), expected(&text), "{text:?}");
    }
}

/// A line of so many bytes and an ending, another line behind it, and cuts around the ending.
#[test]
fn a_line_at_the_limit_is_handed_out_and_a_longer_one_refused() {
    let endings: [&[u8]; 9] = [
        b"",
        b"\n",
        b"\r",
        b"\r\n",
        b"\r\r",
        b"\r\r\n",
        b"\r\r\r\n",
        b"\ra\n",
        b"\r\ra",
    ];
    let mut parts = Parts::new();
    for length in MOST - 3..=MOST + 2 {
        for ending in endings {
            let behind: &[u8] = if ending.ends_with(b"\n") { b"b\r\n" } else { b"" };
            let text = [&vec![b'a'; length][..], ending, behind].concat();
            let expected = expected(&text);

            assert_eq!(by_parts(&mut parts, &[&text]), expected);
            for place in length - 2..=text.len() {
                let (head, tail) = text.split_at(place);
                assert_eq!(
                    by_parts(&mut parts, &[head, tail]),
                    expected,
                    "{length} {ending:?} at {place}"
                );
                let single: Vec<_> = [head].into_iter().chain(tail.chunks(1)).collect();
                assert_eq!(
                    by_parts(&mut parts, &single),
                    expected,
                    "{length} {ending:?} from {place}"
                );
            }
        }
    }
}

/// The cases that the rules name, without a look at `lines`.
#[test]
fn the_limit_counts_what_stays_of_a_line() {
    let mut parts = Parts::new();
    let mut of = |length: usize, ending: &[u8]| by_parts(&mut parts, &[&vec![b'a'; length], ending]);
    let line = |length: usize, end: &[u8]| vec![Ok([&vec![b'a'; length][..], end].concat())];
    let refused = [Err(Refusal::LineTooLong)];

    assert_eq!(of(MOST, b"\n"), line(MOST, b""));
    assert_eq!(of(MOST, b"\r\n"), line(MOST, b""));
    assert_eq!(of(MOST, b""), line(MOST, b""));
    assert_eq!(of(MOST, b"\r"), refused);
    assert_eq!(of(MOST, b"\r\r\n"), refused);
    assert_eq!(of(MOST - 1, b"\r\r\n"), line(MOST - 1, b"\r"));
    assert_eq!(of(MOST - 1, b"\r"), line(MOST - 1, b"\r"));
    assert_eq!(of(MOST + 1, b""), refused);
    assert_eq!(of(MOST + 1, b"\n"), refused);
    assert_eq!(of(MOST + 1, b"\r\n"), refused);
}

#[test]
fn a_long_line_is_refused_once_and_reading_goes_on() {
    let long = vec![b'x'; 3 * MOST];
    for ending in [&b"\n"[..], b"\r\n"] {
        for last in [&b""[..], b"\n", b"\r\n", b"\r"] {
            let text = [b"a\n", &long[..], ending, b"b\n\n", &long, last].concat();
            let answers = [
                Ok(b"a".to_vec()),
                Err(Refusal::LineTooLong),
                Ok(b"b".to_vec()),
                Err(Refusal::LineTooLong),
            ];
            assert_eq!(by_parts(&mut Parts::new(), &[&text]), answers);
            assert_eq!(by_reader(&mut Reader::new(&text[..])), answers);
            assert_eq!(by_reader(&mut Reader::with_capacity(1000, &text[..])), answers);
        }
    }
}

#[test]
fn a_part_is_moved_on_past_one_line() {
    let mut parts = Parts::new();
    let mut part = &b"a\nb\r\n\nc"[..];

    assert_eq!(parts.take(&mut part), Some(Ok(Line(b"a"))));
    assert_eq!(part, b"b\r\n\nc");
    assert_eq!(parts.take(&mut part), Some(Ok(Line(b"b"))));
    assert_eq!(part, b"\nc");
    assert_eq!(parts.take(&mut part), None);
    assert_eq!(part, b"");
    assert_eq!(parts.end(), Some(Ok(Line(b"c"))));
}

/// Blank lines, without a look at `lines`: cut in one, between two, and behind all.
#[test]
fn blank_lines_are_skipped_in_one_call() {
    let mut parts = Parts::new();
    let line = |bytes: &[u8]| Ok(bytes.to_vec());

    assert_eq!(taken(&mut parts, b"\n\r\n\n"), []);
    assert!(!parts.is_begun());
    assert_eq!(taken(&mut parts, b"\r"), []);
    assert!(parts.is_begun());
    assert_eq!(taken(&mut parts, b"\n\r\na\n\n \n\n"), [line(b"a"), line(b" ")]);
    assert!(!parts.is_begun());
    assert_eq!(taken(&mut parts, b"\r\r\n\r"), [line(b"\r")]);
    assert_eq!(parts.end().map(owned), Some(line(b"\r")));
    assert_eq!(taken(&mut parts, &b"\n".repeat(3 * MOST)), []);
    assert_eq!(parts.end(), None);
}

#[test]
fn a_part_of_blank_lines_is_taken_by_one_call() {
    let mut parts = Parts::new();
    let text = [b"\r\n".repeat(MOST), b"a\n\n".to_vec()].concat();
    let mut part = &text[..];

    assert_eq!(parts.take(&mut part), Some(Ok(Line(b"a"))));
    assert_eq!(part, b"\n");
    assert_eq!(parts.take(&mut part), None);
    assert_eq!(part, b"");
}

#[test]
fn a_line_is_begun_until_it_ends() {
    let mut parts = Parts::default();
    let mut begun = |part: &[u8]| {
        taken(&mut parts, part);
        parts.is_begun()
    };
    assert!(!begun(b""));
    assert!(begun(b"a"));
    assert!(begun(b"\r"));
    assert!(!begun(b"\n"));
    assert!(begun(b"\r"));
    assert!(begun(b"\nb"));
    assert!(begun(&[b'a'; 2 * MOST]));
    assert!(!begun(b"\n"));
}

#[test]
fn what_is_ended_is_used_again() {
    let mut parts = Parts::new();
    for first in [&b""[..], b"a", b"a\r", b"\r", b"a\n", &[b'a'; MOST + 1]] {
        by_parts(&mut parts, &[first]);
        assert!(!parts.is_begun());
        assert_eq!(parts.end(), None);
        assert_eq!(by_parts(&mut parts, &[b"\nb"]), [Ok(b"b".to_vec())]);
    }
}

#[test]
fn a_clone_goes_its_own_way() {
    let mut parts = Parts::new();
    parts.take(&mut &b"a\r"[..]);
    let mut other = parts.clone();

    assert_eq!(taken(&mut other, b"b\n"), [Ok(b"a\rb".to_vec())]);
    assert_eq!(taken(&mut parts, b"\n"), [Ok(b"a".to_vec())]);
}

/// The bytes at hand are used up before the input is asked again, and a line does not wait for what follows its line feed.
#[test]
fn a_line_is_handed_out_before_the_input_is_asked_again() {
    let steps = ["a\nb\nc", "\r", "\nd"].map(|part| gives(part.as_bytes()));
    let mut reader = Reader::new(Script::new(steps));
    let mut next = || {
        let line = reader.next_line().map(|line| line.unwrap().bytes().to_vec());
        (line, reader.get_ref().asked)
    };

    assert_eq!(next(), (Some(b"a".to_vec()), 1));
    assert_eq!(next(), (Some(b"b".to_vec()), 1));
    assert_eq!(next(), (Some(b"c".to_vec()), 3));
    assert_eq!(next(), (Some(b"d".to_vec()), 4));
    assert_eq!(next(), (None, 4));
}

#[test]
fn one_byte_at_a_time_and_interrupted_each_time() {
    for text in texts(5) {
        let steps = text
            .iter()
            .flat_map(|byte| [Step::Fails(ErrorKind::Interrupted), gives(&[*byte])]);
        let ending = [Step::Fails(ErrorKind::Interrupted), Step::Ends];
        let mut reader = Reader::new(Script::new(steps.chain(ending)));
        assert_eq!(by_reader(&mut reader), expected(&text), "{text:?}");
    }
}

/// An error at every place: it is handed out each time, and the lines around it are those of the text.
#[test]
fn nothing_is_lost_by_an_error() {
    for kind in [ErrorKind::WouldBlock, ErrorKind::TimedOut, ErrorKind::ConnectionReset] {
        let steps = b"ab\r\nc\r"
            .iter()
            .flat_map(|byte| [Step::Fails(kind), gives(&[*byte])]);
        let mut reader = Reader::new(Script::new(steps.chain([Step::Fails(kind), Step::Ends])));
        let mut seen = Vec::new();
        let mut errors = 0;
        while let Some(line) = reader.next_line() {
            match line {
                Ok(line) => seen.push(line.bytes().to_vec()),
                Err(ReadError::Io(error)) => errors += usize::from(error.kind() == kind),
                Err(ReadError::Refused(refusal)) => panic!("{refusal}"),
            }
            assert!(seen.len() + errors < 10, "{seen:?}");
        }
        assert_eq!(seen, [&b"ab"[..], b"c\r"]);
        assert_eq!(errors, 7);
    }
}

#[test]
fn an_input_that_has_ended_is_asked_again_behind_none() {
    let steps = [
        gives(b"a\r"),
        Step::Ends,
        gives(b"\nb\n"),
        Step::Ends,
        Step::Ends,
        gives(b"c"),
    ];
    let mut reader = Reader::new(Script::new(steps));

    assert_eq!(by_reader(&mut reader), [Ok(b"a\r".to_vec())]);
    assert_eq!(reader.get_ref().asked, 2);
    assert_eq!(by_reader(&mut reader), [Ok(b"b".to_vec())]);
    assert_eq!(by_reader(&mut reader), []);
    assert_eq!(by_reader(&mut reader), [Ok(b"c".to_vec())]);
    assert_eq!(by_reader(&mut reader), []);
}

#[test]
fn a_refused_last_line_is_followed_by_none() {
    let mut reader = Reader::new(Script::new([
        gives(&[b'a'; MOST]),
        gives(b"a"),
        Step::Ends,
        gives(b"b\n"),
    ]));

    assert_eq!(by_reader(&mut reader), [Err(Refusal::LineTooLong)]);
    assert_eq!(reader.get_ref().asked, 3);
    assert_eq!(by_reader(&mut reader), [Ok(b"b".to_vec())]);
}

#[test]
fn an_iterator_owns_its_lines_and_goes_on_behind_errors() {
    let steps = [
        gives(b"a\nb"),
        Step::Fails(ErrorKind::WouldBlock),
        gives(b"c\n"),
        gives(&[b'a'; MOST]),
        gives(b"a\nd"),
    ];
    let lines = Reader::new(Script::new(steps)).into_lines();
    let shown: Vec<_> = lines
        .take(10)
        .map(|line| line.map_err(|error| io::Error::from(error).kind()))
        .collect();

    let refused = Err(ErrorKind::InvalidData);
    let expected = [
        Ok(b"a".to_vec()),
        Err(ErrorKind::WouldBlock),
        Ok(b"bc".to_vec()),
        refused,
        Ok(b"d".to_vec()),
    ];
    assert_eq!(shown, expected);
}

#[test]
fn the_bytes_behind_a_line_are_at_hand() {
    let mut reader = Reader::with_capacity(6, &b"a\nbcdefg"[..]);
    assert_eq!(reader.buffer(), b"");
    assert!(matches!(reader.next_line(), Some(Ok(Line(b"a")))));
    assert_eq!(reader.buffer(), b"bcde");
    assert_eq!(*reader.get_ref(), b"fg");
    *reader.get_mut() = b"h";
    assert!(matches!(reader.next_line(), Some(Ok(Line(b"bcdeh")))));
    assert_eq!(reader.buffer(), b"");
    assert_eq!(reader.into_inner(), b"");
}

/// An error that has a source.
#[derive(Debug)]
struct Around(io::Error);

impl fmt::Display for Around {
    fn fmt(&self, f: &mut fmt::Formatter<'_>) -> fmt::Result {
        f.write_str("around")
    }
}

impl Error for Around {
    fn source(&self) -> Option<&(dyn Error + 'static)> {
        Some(&self.0)
    }
}

#[test]
fn errors_hold_what_they_came_from() {
    let refused = ReadError::from(Refusal::LineTooLong);
    assert_eq!(refused.to_string(), Refusal::LineTooLong.to_string());
    assert!(refused.source().is_none());
    let refused = io::Error::from(refused);
    assert_eq!(refused.kind(), ErrorKind::InvalidData);
    assert_eq!(
        refused.get_ref().and_then(|error| error.downcast_ref()),
        Some(&Refusal::LineTooLong)
    );

    let timed_out = || io::Error::from(ErrorKind::TimedOut);
    let failed = ReadError::from(timed_out());
    assert_eq!(failed.to_string(), timed_out().to_string());
    assert_eq!(io::Error::from(failed).kind(), ErrorKind::TimedOut);

    let around = ReadError::from(io::Error::new(ErrorKind::Other, Around(timed_out())));
    assert_eq!(around.to_string(), "around");
    assert_eq!(
        around.source().map(|error| error.to_string()),
        Some(timed_out().to_string())
    );
}

#[test]
fn what_is_shown_for_a_developer_is_short() {
    let mut reader = Reader::new(&b"a\nb"[..]);
    reader.next_line();
    let shown = format!("{reader:?}");

    assert!(shown.contains("1/65536"), "{shown}");
    assert!(shown.len() < 200, "{shown}");
    assert!(format!("{:?}", Parts::new()).len() < 100);
}

#[test]
fn readers_go_to_other_threads() {
    fn is_sent<T: Send + Sync>() {}
    is_sent::<Parts>();
    is_sent::<Reader<std::net::TcpStream>>();
    is_sent::<ReadError>();
}
