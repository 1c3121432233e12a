//! Runs libadb's `parse_stat_v2_body`: a line of standard input is a body in hexadecimal, and its numbers are written on one.

use std::io::{self, BufRead, BufWriter, Write};

use libadb::sync::format::{parse_stat_v2_body, STAT_V2_BODY_SIZE};
use libadb::text::bytes;

fn main() -> io::Result<()> {
    let mut out = BufWriter::new(io::stdout().lock());
    for line in io::stdin().lock().lines() {
        let body = bytes(line?.trim()).expect("hexadecimal");
        let body: [u8; STAT_V2_BODY_SIZE] = body.try_into().expect("68 bytes");
        let s = parse_stat_v2_body(&body);
        writeln!(
            out,
            "error={} dev={} ino={} mode={} nlink={} uid={} gid={} size={} atime={} mtime={} ctime={}",
            s.error, s.dev, s.ino, s.mode.0, s.nlink, s.uid, s.gid, s.size, s.atime, s.mtime, s.ctime
        )?;
    }
    out.flush()
}
