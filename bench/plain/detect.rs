//! Which updates of scripts took effect, by the logs of their run.

use crate::log::{Head, Line, Log, decode, merge, number_of, row_of, thread_of};
use crate::object::{Object, Reply, Row};
use crate::text::Out;
use crate::{Answer, Job, Word, read_image, read_scripts, says};

/// The images' nodes in order, by the heads that the logs of these threads have.
fn recover<'a, O: Object>(init: &[u8], images: &'a [Vec<Line>]) -> Result<Vec<&'a Line>, Answer> {
    let decoded = |(t, image)| decode(image).ok_or_else(|| says(4, &format!("log {t} not a log")));
    let logs: Vec<Log> = images.iter().map(Vec::as_slice).enumerate().map(decoded).collect::<Result<_, _>>()?;
    let format = |log: &Log| log.head.map_or(1, |head| head.format);
    let head = |(t, log)| Head::new(format(log), t as u64, images.len() as u64, O::CODE, init);
    let heads: Vec<Head> = logs.iter().enumerate().map(head).collect();
    merge(&logs, &heads).map_err(|line| says(4, &line))
}

/// By thread, the place and the reply of each of its nodes, which are its updates in order.
fn outcomes<O: Object>(
    mut object: O,
    trace: &[&Line],
    updates: &[Vec<&Row>],
) -> Result<Vec<Vec<(u64, Reply)>>, Answer> {
    let mut took: Vec<_> = updates.iter().map(|own| Vec::with_capacity(own.len())).collect();
    let mut stranger = None;
    for (place, node) in (1..).zip(trace) {
        let row = row_of(node);
        if !O::is_op(row) {
            return Err(says(4, &format!("place {place} not an operation")));
        }
        let thread = thread_of(node) as usize;
        if updates[thread].get(number_of(node) as usize - 1) != Some(&row) {
            stranger = stranger.or(Some(place));
        }
        took[thread].push((place, object.apply(row)));
    }
    match stranger {
        Some(place) => Err(says(4, &format!("place {place} not in the script"))),
        None => Ok(took),
    }
}

pub fn detect<O: Object>(object: O, init: &[u8], logs: &Word, names: &[&Word]) -> Job {
    let scripts = read_scripts::<O>(names)?;
    let images = (0..names.len()).map(|t| read_image(&[logs, format!(".{t}").as_bytes()].concat()));
    let images: Vec<_> = images.collect::<Result<_, _>>()?;
    let trace = recover::<O>(init, &images)?;
    let updates: Vec<Vec<_>> = scripts.iter().map(|s| s.iter().filter(|row| O::is_update(row)).collect()).collect();
    let took = outcomes(object, &trace, &updates)?;

    let mut out = Out::new(updates.iter().map(Vec::len).sum::<usize>() * 48 + 64);
    for (thread, (script, took)) in scripts.iter().zip(&took).enumerate() {
        let mut took = took.iter();
        for (number, row) in (1..).zip(script).filter(|(_, row)| O::is_update(row)) {
            out.str("call").sp(thread as u64).sp(number).str(" ");
            O::put_call(row, &mut out);
            match took.next() {
                Some((place, reply)) => {
                    out.str(" -> ");
                    reply.put(&mut out);
                    out.str(" at").sp(*place).end();
                }
                None => out.str(" -> lost").end(),
            }
        }
    }
    out.str("recovered").sp(trace.len() as u64).end();
    Ok((0, out))
}
