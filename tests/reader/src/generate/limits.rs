//! Files at the limits of document 01: 64 headers, header names of 64 bytes,
//! 256 names, and files of exact sizes.

use super::draft::{Draft, DraftHeader};
use super::valid::{data_rows, draft_of};
use crate::check::FileKind;
use crate::protocol::MOST_BYTES_OF_A_REQUEST;
use crate::random::Random;
use crate::report::MOST_BYTES_OF_A_REPORT;

/// A CTD file of 63 to 65 headers, the last name 63 to 65 bytes long.
pub fn many_headers(random: &mut Random) -> Draft {
    let mut draft = draft_of(random, FileKind::Ctd, 1);
    let count = random.pick(&[63, 64, 64, 64, 65]);
    while draft.headers.len() < count {
        let name = format!("H{}", draft.headers.len());
        draft.headers.push(DraftHeader::new(name.as_bytes(), b"x"));
    }
    let length = random.pick(&[63, 64, 64, 65]);
    draft.headers[count - 1].name = vec![b'L'; length];
    draft.headers[0].value = count.to_string().into_bytes();
    if random.one_in(4) {
        let value = random.pick(&[&b"63"[..], b"64", b"65", b"99"]);
        draft.headers[0].value = value.to_vec();
    }
    draft
}

/// A file of as many rows as fit in about so many bytes.
pub fn large(random: &mut Random, bytes: usize) -> Draft {
    let kind = random.pick(&[FileKind::Bottle, FileKind::Ctd]);
    let mut draft = draft_of(random, kind, 1);
    let row_length = draft.rows[0].join(&b',').len() + 1;
    draft.rows = data_rows(random, &draft.names, bytes / row_length + 1);
    draft
}

/// A file of exactly so many bytes, filled up with lines after `END_DATA`.
pub fn file_of_size(random: &mut Random) -> Vec<u8> {
    let limit =
        random.pick(&[MOST_BYTES_OF_A_REPORT, MOST_BYTES_OF_A_REPORT, MOST_BYTES_OF_A_REQUEST]);
    let size = limit + random.pick(&[0, 1, 2]) - 1;
    let draft = large(random, size / 2);
    let mut file = draft.bytes();
    if random.one_in(3) {
        file.clear();
    }
    while file.len() < size {
        let length = (size - file.len()).min(8_000);
        file.extend(vec![b'x'; length - 1]);
        file.push(b'\n');
    }
    file.truncate(size);
    file
}

/// A file of up to 65,536 bytes that is nearly all profiles of one short row,
/// so that its report is longer than the file.
pub fn file_of_many_profiles(random: &mut Random) -> Vec<u8> {
    let names = "BOTTLE\nEXPOCODE,STNNBR,CASTNO,DATE,LATITUDE,LONGITUDE\n,,,,,\n";
    let end = "END_DATA\n";
    let most = random.pick(&[5_000, 30_000, MOST_BYTES_OF_A_REPORT, MOST_BYTES_OF_A_REPORT]);
    let mut file = names.as_bytes().to_vec();
    for number in 0.. {
        let row = format!("A,{},{},20240101,0,0\n", number % 2, random.below(10));
        if file.len() + row.len() + end.len() > most {
            break;
        }
        file.extend(row.bytes());
    }
    file.extend(end.bytes());
    file
}

/// Files of a few lines or bytes.
pub fn tiny(random: &mut Random) -> Vec<u8> {
    let files: [&[u8]; 24] = [
        b"", b"\n", b"\n\n", b"B", b"BOTTLE", b"BOTTLE\n", b"BOTTLES\n\xff\n",
        b"BOTTLE,\x0d\xff\n", b"\xff", b"\xef\xbb\xbf", b"\xef\xbb\xbf\n", b"\xef\xbb\n", b"CTD\n",
        b"CTD\n#\n", b"CTD\nNUMBER_HEADERS=1\n", b"CTD\nNUMBER_HEADERS=1",
        b"CTD\nNUMBER_HEADERS=2\n", b"#\t\n", b"END_DATA\n", b"BOTTLE\nEND_DATA\n", b"BOTTLE\n#",
        b"BOTTLE\n\n", b"CTD\n\n", b"BOTTLE\n#\x0d\n",
    ];
    random.pick(&files).to_vec()
}
