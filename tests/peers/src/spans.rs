//! Workloads on spans, and on errors with spans.
use crate::item::{mixed, sample, span, timed};
use crate::{Sample, Span, WithSpan};
use std::fmt;

/// A line of the text, which has 33 bytes.
const LINE: &str = "let value = other + 1.0 * thing;\n";

/// Times an operation on a list of spans in no apparent order.
fn on_spans(size: u32, run: fn(&[Span]) -> Span) -> Sample {
    let spans: Vec<Span> = (0..size).map(|number| span(number.wrapping_mul(0x9E37_79B9))).collect();
    let (whole, time) = timed(|| run(&spans));
    let whole = whole.to_range().unwrap_or(0..0);
    sample(size, whole.start as u64, whole.end as u64, time)
}

pub fn subsume(size: u32) -> Sample {
    on_spans(size, |spans| {
        let mut whole = Span::UNDEFINED;
        for span in spans {
            whole.subsume(*span);
        }
        whole
    })
}

pub fn total(size: u32) -> Sample {
    on_spans(size, |spans| Span::total_span(spans.iter().copied()))
}

/// Times an operation on a text of `size` lines.
fn on_text(size: u32, run: impl FnOnce(&str) -> u64) -> Sample {
    let text = LINE.repeat(size as usize);
    let (sum, time) = timed(|| run(&text));
    sample(size, sum, text.len() as u64, time)
}

/// Finds the locations of 64 spans that begin in the last lines of a text.
pub fn location(size: u32) -> Sample {
    on_text(size, |text| {
        (0..64).fold(0, |sum, back| {
            let start = size.saturating_mul(33).saturating_sub(back);
            mixed(sum, Span::new(start, start).location(text).line_number.into())
        })
    })
}

pub fn slice_of(size: u32) -> Sample {
    on_text(size, |text| (0..size).fold(0, |sum, number| mixed(sum, text[span(number)].len() as u64)))
}

#[derive(Debug)]
struct Fault;

impl fmt::Display for Fault {
    fn fmt(&self, _: &mut fmt::Formatter<'_>) -> fmt::Result {
        Ok(())
    }
}

/// Adds `size` spans to an error, each with a text.
pub fn error_with_spans(size: u32) -> Sample {
    let (error, time) = timed(|| {
        (0..size).fold(WithSpan::new(Fault), |error, number| error.with_span(span(number), "declared here"))
    });
    let ends = error.spans().map(|(span, _)| span.to_range().unwrap_or(0..0).end as u64);
    sample(size, 0, ends.fold(0, mixed), time)
}
