//! Writes a trace of so many pieces of one worker, with a counter behind each, to standard output:
//! the document that `bbq-profile` writes of such a run, by plain Rust's `write!`. bench/trace.sh
//! builds it where rustc is there.
use std::io::{stdout, BufWriter, Result, Write};

fn main() -> Result<()> {
    let pieces = std::env::args()
        .nth(1)
        .and_then(|word| word.parse::<u64>().ok())
        .unwrap_or(0);
    let mut out = BufWriter::with_capacity(1 << 16, stdout().lock());
    let spans = pieces + 1;
    write!(
        out,
        r#"{{"displayTimeUnit":"ms","otherData":{{"accepted":{spans},"kept":{spans}}},"traceEvents":["#
    )?;
    write!(
        out,
        r#"{{"args":{{"name":"worker 1"}},"name":"thread_name","ph":"M","pid":1,"tid":1}},"#
    )?;
    for piece in 0..pieces {
        let (start, total, words) = (piece * 3, (piece + 1) * 53, 53);
        write!(
            out,
            r#"{{"args":{{"depth":1,"file":0,"piece":{piece},"total":{total},"words":{words}}},"cat":"piece","dur":2,"name":"generated","ph":"X","pid":1,"tid":1,"ts":{start}}},"#
        )?;
        write!(
            out,
            r#"{{"args":{{"words":{total}}},"name":"words 1","ph":"C","pid":1,"tid":1,"ts":{}}},"#,
            start + 2
        )?;
    }
    write!(
        out,
        r#"{{"args":{{"depth":0,"pieces":{pieces},"total":{0},"words":{0}}},"cat":"worker","dur":{1},"name":"worker","ph":"X","pid":1,"tid":1,"ts":0}}]}}"#,
        pieces * 53,
        pieces * 3
    )?;
    writeln!(out)
}
