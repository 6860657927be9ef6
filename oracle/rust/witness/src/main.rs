// html5ever as a witness: reads frames of sources, and writes for each frame what the tokenizer and the serializer say.
//
//     witness whole           hands a source to html5ever in one part
//     witness characters      hands it over character by character
//     witness say T|A SOURCE  reads no frames, and prints for one source the text and html5ever's own messages
//
// A frame is its length in four bytes, little-endian as all numbers here, and records: a kind, the source's length in four bytes, and
// the source, in UTF-8. Kinds are T and A, decode in text and in an attribute, and t and a, escape in text and in attribute mode. The
// answer is a frame with, for each record, the text's length in four bytes, the text, how many errors there are in four bytes, and a
// byte for each: document 01's code.
use html5ever::buffer_queue::BufferQueue;
use html5ever::serialize::{HtmlSerializer, SerializeOpts, Serializer};
use html5ever::tendril::StrTendril;
use html5ever::tokenizer::{Tag, Token, TokenSink, TokenSinkResult, Tokenizer, TokenizerOpts};
use html5ever::{ns, LocalName, QualName};
use std::cell::RefCell;
use std::io::{self, Read, Write};
use std::panic::catch_unwind;

// Document 01's codes for html5ever's messages; each message that speaks of something else is `UNKNOWN`.
const NO_DIGITS: u8 = 1;
const NO_SEMICOLON: u8 = 2;
const BAD_NUMBER: u8 = 3;
const UNKNOWN_NAME: u8 = 4;
const BAD_CHARACTER: u8 = 5;
const UNKNOWN: u8 = 255;

fn code(message: &str) -> u8 {
    match message {
        "Numeric character reference without digits" | "EOF after '#' in character reference" => NO_DIGITS,
        "Semicolon missing after numeric character reference"
        | "EOF in numeric character reference"
        | "Character reference does not end with semicolon" => NO_SEMICOLON,
        _ if message.starts_with("Invalid numeric character reference value 0x") => BAD_NUMBER,
        _ if message.starts_with("Invalid character reference &") => UNKNOWN_NAME,
        _ if message.starts_with("Bad character ") => BAD_CHARACTER,
        _ => UNKNOWN,
    }
}

// What the tokenizer said so far.
#[derive(Default)]
struct Heard {
    text: String,
    codes: Vec<u8>,
    messages: Vec<String>,
    tags: Vec<Tag>,
    at_end: bool,
}

#[derive(Default)]
struct Listener(RefCell<Heard>);

impl TokenSink for Listener {
    type Handle = ();

    fn process_token(&self, token: Token, _line: u64) -> TokenSinkResult<()> {
        let mut heard = self.0.borrow_mut();
        match token {
            Token::CharacterTokens(text) => {
                assert!(heard.tags.is_empty(), "text after the tag");
                heard.text.push_str(&text)
            },
            Token::ParseError(message) => {
                heard.codes.push(code(&message));
                heard.messages.push(message.into_owned())
            },
            Token::TagToken(tag) => heard.tags.push(tag),
            Token::EOFToken => heard.at_end = true,
            other => panic!("{other:?} is no text"),
        }
        TokenSinkResult::Continue
    }
}

// How a source is handed over.
#[derive(Clone, Copy, PartialEq)]
enum Way {
    Whole,
    Characters,
}

fn parts(way: Way, source: &str) -> Vec<&str> {
    match way {
        Way::Whole => vec![source],
        Way::Characters => source.char_indices().map(|(at, c)| &source[at..at + c.len_utf8()]).collect(),
    }
}

// A tokenizer in the Data state, as document 01 asks for it, and what it hears: parts, and perhaps the end of the input.
fn tokenize(parts: &[&str], ends: bool) -> Heard {
    let options = TokenizerOpts {
        exact_errors: true,
        discard_bom: false,
        ..Default::default()
    };
    let tokenizer = Tokenizer::new(Listener::default(), options);
    for part in parts {
        let queue = BufferQueue::default();
        queue.push_back(StrTendril::from_slice(part));
        let _ = tokenizer.feed(&queue);
        assert!(queue.is_empty(), "input is left");
    }
    if ends {
        tokenizer.end();
    }
    tokenizer.sink.0.take()
}

// The source up to the character that ends its context, with that character, if it stands there.
fn with_end(source: &str, end: char) -> (&str, bool) {
    match source.find(end) {
        Some(at) => (&source[..=at], true),
        None => (source, false),
    }
}

// Text: the Data state. If the source has a `<`, a tag follows, which shows that the `<` was met in that state.
fn decode_text(way: Way, source: &str) -> Heard {
    let (covered, left) = with_end(source, '<');
    let mut all = parts(way, covered);
    if left {
        all.push("x>");
    }
    let heard = tokenize(&all, !left);
    assert!(heard.at_end != left && heard.tags.len() == left as usize, "the text did not end where it had to");
    heard
}

// An attribute: a value in double quotes, in a tag. If the source has no `"`, one follows; and without it, at the end of the input, the
// tag is lost but the errors must be the same and then that of a tag cut short.
fn decode_attribute(way: Way, source: &str) -> Heard {
    let (covered, left) = with_end(source, '"');
    let mut all = vec!["<x a=\""];
    all.extend(parts(way, covered));
    if !left {
        let cut = tokenize(&all, true);
        all.push("\"");
        all.push(">");
        let mut heard = tokenize(&all, false);
        let (last, before) = cut.messages.split_last().expect("no error for a tag cut short");
        assert!(last == "Unexpected EOF", "{last:?} for a tag cut short");
        let codes: Vec<u8> = before.iter().map(|message| code(message)).collect();
        assert!(codes == heard.codes, "{before:?} before a tag cut short, else {:?}", heard.messages);
        take_value(&mut heard);
        return heard;
    }
    all.push(">");
    let mut heard = tokenize(&all, false);
    take_value(&mut heard);
    heard
}

// The value of the only attribute of the only tag becomes the text.
fn take_value(heard: &mut Heard) {
    assert!(heard.text.is_empty() && heard.tags.len() == 1 && heard.tags[0].attrs.len() == 1, "there is more than a tag");
    heard.text = heard.tags[0].attrs[0].value.to_string();
}

fn name(word: &str) -> QualName {
    QualName::new(None, ns!(html), LocalName::from(word))
}

// `write_escaped`, as text of no element and as an attribute's value.
fn escape_text(text: &str) -> Vec<u8> {
    let mut serializer = HtmlSerializer::new(Vec::new(), SerializeOpts::default());
    serializer.write_text(text).unwrap();
    serializer.writer
}

fn escape_attribute(value: &str) -> Vec<u8> {
    let attribute = QualName::new(None, ns!(), LocalName::from("a"));
    let mut serializer = HtmlSerializer::new(Vec::new(), SerializeOpts::default());
    serializer.start_elem(name("x"), std::iter::once((&attribute, value))).unwrap();
    let tag = serializer.writer;
    tag.strip_prefix(b"<x a=\"").unwrap().strip_suffix(b"\">").unwrap().to_vec()
}

fn put(out: &mut Vec<u8>, bytes: &[u8]) {
    out.extend((bytes.len() as u32).to_le_bytes());
    out.extend(bytes);
}

// The text and the codes for one record.
fn answer(way: Way, kind: u8, source: &str) -> (Vec<u8>, Vec<u8>) {
    let escaped = |by: fn(&str) -> Vec<u8>| parts(way, source).into_iter().flat_map(by).collect::<Vec<u8>>();
    match kind {
        b'T' | b'A' => {
            let heard = if kind == b'T' { decode_text(way, source) } else { decode_attribute(way, source) };
            (heard.text.into_bytes(), heard.codes)
        },
        b't' => (escaped(escape_text), vec![]),
        b'a' => (escaped(escape_attribute), vec![]),
        _ => panic!("no kind {kind}"),
    }
}

fn number(bytes: &[u8]) -> usize {
    u32::from_le_bytes(bytes.try_into().unwrap()) as usize
}

fn answer_frame(way: Way, mut frame: &[u8]) -> Vec<u8> {
    let mut out = vec![];
    while !frame.is_empty() {
        let (head, rest) = frame.split_at(5);
        let (source, rest) = rest.split_at(number(&head[1..]));
        let source = std::str::from_utf8(source).expect("the source is no UTF-8");
        let (text, codes) = catch_unwind(|| answer(way, head[0], source)).unwrap_or_else(|_| (b"panicked".to_vec(), vec![]));
        put(&mut out, &text);
        put(&mut out, &codes);
        frame = rest;
    }
    out
}

fn say(kind: &str, source: &str) {
    let heard = if kind == "T" { decode_text(Way::Whole, source) } else { decode_attribute(Way::Whole, source) };
    println!("{:?}", heard.text);
    for (code, message) in heard.codes.iter().zip(&heard.messages) {
        println!("{code} {message}");
    }
}

fn main() -> io::Result<()> {
    let arguments: Vec<String> = std::env::args().skip(1).collect();
    let words: Vec<&str> = arguments.iter().map(String::as_str).collect();
    let way = match words[..] {
        ["whole"] => Way::Whole,
        ["characters"] => Way::Characters,
        ["say", kind @ ("T" | "A"), source] => {
            say(kind, source);
            return Ok(());
        },
        _ => {
            eprintln!("usage: witness whole | witness characters | witness say T|A SOURCE");
            std::process::exit(2)
        },
    };
    let (mut input, mut output) = (io::stdin().lock(), io::stdout().lock());
    let mut length = [0; 4];
    while input.read_exact(&mut length).is_ok() {
        let mut frame = vec![0; number(&length)];
        input.read_exact(&mut frame)?;
        let answers = answer_frame(way, &frame);
        output.write_all(&(answers.len() as u32).to_le_bytes())?;
        output.write_all(&answers)?;
        output.flush()?;
    }
    Ok(())
}
