//! Judges a printed report of a run of scripts: first its form, line by line, then what it says.

use crate::object::{Object, Reply, Row};
use crate::text::{Out, pack};
use crate::{Job, Word, read_scripts, read_text, refuse, says};

const REPORT: u64 = 67_108_864;

/// What a report says that became of a call, and where.
#[derive(Clone, Copy, PartialEq)]
enum Said {
    Answered(u64),
    FenceFailed(u64),
    Broken(u64),
}
use Said::*;

/// The line of a call.
struct CallLine<'a> {
    number: u64,
    row: Row,
    said: Said,
    /// What stands after the arrow.
    text: &'a [u8],
}

struct Node {
    thread: u64,
    number: u64,
    row: Row,
}

/// What a report says that is judged.
struct Form<'a> {
    calls: Vec<Vec<CallLine<'a>>>,
    nodes: Vec<Node>,
    state_line: u64,
    state: &'a [u8],
}

// Words of lines. Each reader takes what it read off the front of the text that is left.

fn skip(left: &mut &[u8], text: &[u8]) -> Option<()> {
    *left = left.strip_prefix(text)?;
    Some(())
}

/// A number in its shortest form.
fn number(left: &mut &[u8]) -> Option<u64> {
    let (mut value, mut digits) = (0u64, 0);
    while let Some(digit) = left.get(digits).map(|byte| byte.wrapping_sub(b'0')).filter(|digit| *digit < 10) {
        value = value.checked_mul(10)?.checked_add(digit as u64)?;
        digits += 1;
    }
    if digits == 0 || digits > 1 && left[0] == b'0' {
        return None;
    }
    *left = &left[digits..];
    Some(value)
}

fn whole_number(mut text: &[u8]) -> Option<u64> {
    number(&mut text).filter(|_| text.is_empty())
}

/// A word, which ends before a space or a line end.
fn word<'a>(left: &mut &'a [u8]) -> Option<&'a [u8]> {
    let end = left.iter().position(|byte| matches!(byte, b' ' | b'\n'))?;
    let (word, rest) = left.split_at(end);
    *left = rest;
    Some(word)
}

/// A call of the object; of an update alone where nothing else may stand there.
fn call<O: Object>(left: &mut &[u8]) -> Option<Row> {
    let name = word(left)?;
    let code = O::FORMS.iter().position(|form| form.word.as_bytes() == name)?;
    let mut row = [0; 7];
    row[0] = code as u64 + 1;
    let mut slot = 1;
    for kind in O::FORMS[code].kinds {
        skip(left, b" ")?;
        if *kind == b'n' {
            row[slot] = number(left)?;
            slot += 1;
        } else {
            row[slot..slot + 3].copy_from_slice(&pack(word(left)?)?);
            slot += 3;
        }
    }
    Some(row)
}

fn split_last(text: &[u8]) -> Option<(&[u8], &[u8])> {
    let space = text.iter().rposition(|byte| *byte == b' ')?;
    Some((&text[..space], &text[space + 1..]))
}

/// What a text after an arrow says.
fn said(text: &[u8]) -> Option<Said> {
    if let Some(place) = text.strip_prefix(b"fence failed at ").and_then(whole_number) {
        return Some(FenceFailed(place));
    }
    if let Some(place) = text.strip_prefix(b"broken at ").and_then(whole_number) {
        return Some(Broken(place));
    }
    let (front, place) = split_last(text)?;
    let (reply, at) = split_last(front)?;
    let is_word = |word: &[u8]| !word.is_empty() && !word.iter().any(|byte| matches!(byte, b'\t' | b'\r'));
    let fits = at == b"at" && reply.split(|byte| *byte == b' ').all(is_word);
    Some(Answered(whole_number(place)?)).filter(|_| fits)
}

// Lines.

/// The line of a call of this thread or of a later one, and its thread.
fn call_line<'a, O: Object>(left: &mut &'a [u8], threads: std::ops::Range<u64>) -> Option<(u64, CallLine<'a>)> {
    skip(left, b"call ")?;
    let thread = number(left).filter(|thread| threads.contains(thread))?;
    skip(left, b" ")?;
    let number = number(left)?;
    skip(left, b" ")?;
    let row = call::<O>(left)?;
    skip(left, b" -> ")?;
    let (text, rest) = left.split_at(left.iter().position(|byte| *byte == b'\n')?);
    *left = &rest[1..];
    Some((thread, CallLine { number, row, said: said(text)?, text }))
}

fn node_line<O: Object>(left: &mut &[u8], place: u64) -> Option<Node> {
    skip(left, b"node ")?;
    number(left).filter(|here| *here == place)?;
    skip(left, b" ")?;
    let thread = number(left)?;
    skip(left, b" ")?;
    let number = number(left)?;
    skip(left, b" set ").or_else(|| skip(left, b" unset "))?;
    let row = call::<O>(left).filter(O::is_update)?;
    skip(left, b"\n")?;
    Some(Node { thread, number, row })
}

/// The numbers of a line that has one after each of these words.
fn numbers_line<const N: usize>(left: &mut &[u8], words: [&[u8]; N]) -> Option<[u64; N]> {
    let mut numbers = [0; N];
    for (said, word) in numbers.iter_mut().zip(words) {
        skip(left, word)?;
        *said = number(left)?;
    }
    skip(left, b"\n")?;
    Some(numbers)
}

/// The lines of a report that are left, and the number of the first.
struct Lines<'a> {
    line: u64,
    left: &'a [u8],
}

impl<'a> Lines<'a> {
    /// The next line, where it is one of this kind.
    fn next<T>(&mut self, read: impl FnOnce(&mut &'a [u8]) -> Option<T>) -> Option<T> {
        let mut left = self.left;
        let got = read(&mut left)?;
        self.left = left;
        self.line += 1;
        Some(got)
    }

    /// The same of a line that must stand there; else its number.
    fn want<T>(&mut self, read: impl FnOnce(&mut &'a [u8]) -> Option<T>) -> Result<T, u64> {
        let line = self.line;
        self.next(read).ok_or(line)
    }
}

/// What a report of so many threads says, or its first line that is none of the form.
fn read_form<O: Object>(threads: u64, report: &[u8]) -> Result<Form<'_>, u64> {
    let mut lines = Lines { line: 1, left: report };
    let mut calls: Vec<_> = (0..threads).map(|_| Vec::new()).collect();
    let mut thread = 0;
    while let Some((own, call)) = lines.next(|left| call_line::<O>(left, thread..threads)) {
        thread = own;
        calls[own as usize].push(call);
    }
    let [count] = lines.want(|left| numbers_line(left, [b"trace "]))?;
    let mut nodes = Vec::with_capacity(count.min(lines.left.len() as u64 / 16) as usize);
    for place in 1..=count {
        nodes.push(lines.want(|left| node_line::<O>(left, place))?);
    }
    for thread in 0..threads {
        let log = |left: &mut _| numbers_line(left, [b"log ", b" entries ", b" lines ", b" fences "]);
        lines.want(|left| log(left).filter(|log| log[0] == thread))?;
    }
    lines.want(|left| numbers_line(left, [b"recovered "]))?;
    let mut least = 0;
    let fault = |left: &mut _| numbers_line(left, [b"fault thread ", b" place "]);
    while let Some([thread, _]) = lines.next(|left| fault(left).filter(|fault| (least..threads).contains(&fault[0]))) {
        least = thread + 1;
    }
    let state_line = lines.line;
    lines.want(|left| skip(left, b"state\n"))?;
    Ok(Form { calls, nodes, state_line, state: lines.left })
}

// Verdicts.

/// A wrong line and why it is.
type Wrong = (u64, &'static str);

/// No call.
const NONE: u32 = u32::MAX;

/// The answered calls, by place.
struct Answers<'a> {
    /// Of each node the call that is answered there, an index of `calls`.
    updates: Vec<u32>,
    /// The places of reads, and their calls.
    reads: Vec<(u64, u32)>,
    /// The lines of calls, all threads' one after the other, so that the first is line 1.
    calls: Vec<&'a CallLine<'a>>,
}

/// Tests a thread's lines by all but their replies, up to the first that is wrong.
fn thread_wrong<'a, O: Object>(
    script: &[Row],
    lines: &'a [CallLine<'a>],
    places: &[u64],
    nodes: u64,
    answers: &mut Answers<'a>,
) -> Option<Wrong> {
    let (mut answered, mut read, mut failed) = (0, 0, None);
    let mut places = places.iter();
    for (k, call) in lines.iter().enumerate() {
        let at = answers.calls.len() as u32;
        let wrong = |why| Some((at as u64 + 1, why));
        if call.number != k as u64 + 1 || script.get(k) != Some(&call.row) {
            return wrong("not the script");
        }
        match (O::is_update(&call.row), call.said, failed) {
            (true, Answered(place) | FenceFailed(place), None) => {
                // Places are from 1, so a read at 0 reaches none.
                if places.next() != Some(&place) || place <= read {
                    return wrong("wrong place");
                }
                if call.said == Answered(place) {
                    answers.updates[place as usize - 1] = at;
                    answered = answered.max(place);
                } else {
                    failed = Some(place);
                }
            }
            (true, Broken(place), Some(failed)) if place == failed => {}
            (false, Answered(place), _) => {
                if place < answered || place > nodes {
                    return wrong("wrong place");
                }
                answers.reads.push((place, at));
                answered = place;
                read = place;
            }
            _ => return wrong("wrong outcome"),
        }
        answers.calls.push(call);
    }
    None
}

/// The least line whose reply is not the object's; the object goes through all nodes.
fn reply_wrong<O: Object>(object: &mut O, nodes: &[Node], answers: &Answers) -> Option<Wrong> {
    let mut reads = answers.reads.iter().peekable();
    let mut least = None;
    let mut out = Out::default();
    let mut judge = |at: u32, reply: Reply| {
        let call = answers.calls[at as usize];
        let Answered(place) = call.said else { return };
        out.0.clear();
        reply.put(&mut out);
        out.str(" at").sp(place);
        if out.0 != call.text && least.is_none_or(|least| at < least) {
            least = Some(at);
        }
    };
    for place in 0..=nodes.len() {
        while let Some((_, at)) = reads.next_if(|read| read.0 == place as u64) {
            judge(*at, object.ask(&answers.calls[*at as usize].row));
        }
        let Some(node) = nodes.get(place) else { break };
        let at = answers.updates[place];
        // A call that is not the node's operation is asked of a copy; the node is wrong then.
        if at != NONE && answers.calls[at as usize].row != node.row {
            judge(at, object.clone().apply(&answers.calls[at as usize].row));
            object.apply(&node.row);
        } else {
            let reply = object.apply(&node.row);
            if at != NONE {
                judge(at, reply);
            }
        }
    }
    least.map(|at| (at as u64 + 1, "wrong reply"))
}

/// The first node that is not its thread's next update with a place.
fn node_wrong<O: Object>(form: &Form) -> Option<Wrong> {
    let has_place = |call: &&CallLine| O::is_update(&call.row) && !matches!(call.said, Broken(_));
    let mut updates: Vec<_> = form.calls.iter().map(|calls| (1..).zip(calls.iter().filter(has_place))).collect();
    let mut follows = |node: &Node| {
        let next = updates.get_mut(node.thread as usize).and_then(Iterator::next);
        next.is_some_and(|(number, call)| number == node.number && call.row == node.row)
    };
    let first = form.calls.iter().map(Vec::len).sum::<usize>() as u64 + 2;
    form.nodes.iter().position(|node| !follows(node)).map(|at| (first + at as u64, "wrong node"))
}

/// The least wrong line, and the first reason why it is.
fn wrong<O: Object>(mut object: O, scripts: &[Vec<Row>], form: &Form) -> Option<Wrong> {
    let mut places = vec![Vec::new(); scripts.len()];
    for (place, node) in (1..).zip(&form.nodes) {
        if let Some(own) = places.get_mut(node.thread as usize) {
            own.push(place);
        }
    }
    let count = form.nodes.len();
    let calls = Vec::with_capacity(form.calls.iter().map(Vec::len).sum());
    let mut answers = Answers { updates: vec![NONE; count], reads: Vec::new(), calls };
    let mut threads = scripts.iter().zip(&form.calls).zip(&places);
    let wrong = threads.find_map(|((script, lines), own)| thread_wrong::<O>(script, lines, own, count as u64, &mut answers));
    answers.reads.sort_by_key(|read| read.0);
    // Replies are judged of the lines before that one alone.
    reply_wrong(&mut object, &form.nodes, &answers).or(wrong).or_else(|| node_wrong::<O>(form)).or_else(|| {
        let mut state = Out::new(form.state.len());
        object.put_state(&mut state);
        (state.0 != form.state).then_some((form.state_line, "wrong state"))
    })
}

pub fn audit<O: Object>(object: O, name: &Word, scripts: &[&Word]) -> Job {
    let scripts = read_scripts::<O>(scripts)?;
    let report = read_text(name, REPORT)?;
    if report.len() as u64 > REPORT {
        return Err(refuse(name, 0, "bad line"));
    }
    let form = read_form::<O>(scripts.len() as u64, &report).map_err(|line| refuse(name, line, "bad line"))?;
    match wrong(object, &scripts, &form) {
        Some((line, why)) => Err(says(8, &format!("line {line} {why}"))),
        None => Ok(says(0, "legal")),
    }
}
