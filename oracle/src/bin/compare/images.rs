//! Images as Intel HEX, for `write_hex` and `read_hex`: every room, every byte of a text put otherwise, records of every
//! kind and place, and every order of faults.
use crate::exhaustive::Exhaustive;
use oracle::chip::IMAGE;
use oracle::hex_texts::{
    any_lines, completed, cr_lf, ended, instead, kinds, line, lower, malformed, mixed, record, rows, summed, with,
    ADDRESSES, BYTES, CLOSE, DATA, END, WRONG_ENDS,
};
use oracle::intel_hex::TEXT;
use oracle::maker::{Image, IMAGES};
use oracle::texts::spoil;
use oracle::{Operation, Variant};
use std::ops::Range;
use std::slice;

const LENGTHS: [usize; 6] = [0, 1, 127, 128, 129, 256];

/// About where a record may begin and end.
const EDGES: [usize; 11] = [0, 1, 2, 63, 64, 65, 126, 127, 128, 129, 255];

impl Exhaustive<'_> {
    pub fn images(&mut self) {
        self.hex_rooms();
        self.hex_lengths();
        self.hex_values();
        self.begin(Operation::ReadHex);
        self.hex_bytes();
        self.hex_cuts();
        self.hex_line_ends();
        self.hex_layouts();
        self.hex_empty_records();
        self.hex_places();
        self.hex_overlaps();
        self.hex_counts();
        self.hex_sums_and_types();
        self.hex_closings();
        self.hex_orders();
        self.hex_threes();
        self.hex_long_texts();
        self.hex_any();
    }

    fn begin(&mut self, operation: Operation) {
        self.maker.make(Self::of_variant(Variant::Sx1276), operation, &[], Image::Random);
    }

    /// A text to be read into an image that stays the same: a refusal is seen to leave it.
    fn hex(&mut self, text: &[u8]) {
        self.maker.call.buffer.clear();
        self.maker.call.buffer.extend_from_slice(text);
        self.offer();
    }

    fn any_image(&mut self) -> [u8; IMAGE] {
        let mut image = [0; IMAGE];
        self.maker.random.fill(&mut image);
        image
    }

    /// Lines of our layout, of an image that is a new one each time.
    fn ours(&mut self) -> Vec<Vec<u8>> {
        rows(&self.any_image(), 16)
    }

    /// Every room up to 400 bytes, and some above.
    fn hex_rooms(&mut self) {
        for (image, room) in
            IMAGES.into_iter().flat_map(|image| (0..=400).chain([1_024, 65_536]).map(move |r| (image, r)))
        {
            self.maker.make(Self::of_variant(Variant::Sx1272), Operation::WriteHex, &[], image);
            self.maker.lend_buffer(room);
            self.offer();
        }
    }

    /// Images of wrong lengths, with rooms about the right one and with texts of every kind.
    fn hex_lengths(&mut self) {
        for length in LENGTHS {
            for room in [0, 1, TEXT - 1, TEXT, TEXT + 1, 400] {
                self.begin(Operation::WriteHex);
                self.maker.call.image.resize(length, 0x5a);
                self.maker.lend_buffer(room);
                self.offer();
            }
            self.begin(Operation::ReadHex);
            self.maker.call.image.resize(length, 0x5a);
            self.offer();
            for text in kinds().iter().chain([&Vec::new()]) {
                self.hex(text);
            }
        }
    }

    /// Every value at every address, written.
    fn hex_values(&mut self) {
        self.begin(Operation::WriteHex);
        for (address, value) in (0..IMAGE).flat_map(|address| (0..=255).map(move |value| (address, value))) {
            self.maker.call.image[address] = value;
            self.offer();
        }
    }

    /// Every byte of a text replaced by every value: of ours, in each style, with records of a byte, and with one of 255.
    /// Every value put in before it in ours; elsewhere those that mean something.
    fn hex_bytes(&mut self) {
        let every: Vec<u8> = (0..=255).collect();
        let (image, ours) = (self.any_image(), self.ours().concat());
        let bytes: Vec<Range<usize>> = (0..16).map(|address| address..address + 1).collect();
        let few = completed(&image, &bytes).concat();
        let longest = [record(DATA, 0, &[0xa5; 255]), CLOSE.to_vec()].concat();
        self.hex_byte(&ours, &every, &every);
        self.hex_byte(&lower(&ours), &every, &[]);
        let mixed = mixed(&mut self.maker.random, &ours);
        for text in [cr_lf(&ours), mixed, few, longest] {
            self.hex_byte(&text, &every, &BYTES);
        }
        self.hex_byte(&rows(&image, 1).concat(), &BYTES, &[]);
    }

    /// At each place: these values in its stead, those put in before it, it left out, and changed with the next.
    fn hex_byte(&mut self, text: &[u8], replaced: &[u8], put_in: &[u8]) {
        for place in 0..text.len() {
            let (before, after) = (&text[..place], &text[place + 1..]);
            for value in replaced {
                self.hex(&[before, &[*value], after].concat());
            }
            for value in put_in {
                self.hex(&[before, &[*value], &text[place..]].concat());
            }
            self.hex(&[before, after].concat());
            if let [second, rest @ ..] = after {
                self.hex(&[before, &[*second, text[place]], rest].concat());
            }
        }
    }

    /// Texts cut at every length, from behind and from before, and closed there again.
    fn hex_cuts(&mut self) {
        let (ours, image) = (self.ours().concat(), self.any_image());
        let random = &mut self.maker.random;
        let texts =
            [cr_lf(&ours), lower(&ours), mixed(random, &ours), rows(&image, 1).concat(), rows(&image, 128).concat()];
        for text in [ours].iter().chain(&texts) {
            for place in 0..=text.len() {
                let (before, after) = text.split_at(place);
                for end in [&b""[..], b"\n", b"\r", b"\r\n", b"\x1a", CLOSE, b"\n:00000001FF\n"] {
                    self.hex(&[before, end].concat());
                }
                self.hex(after);
            }
        }
    }

    /// Every choice of LF and CR LF for the nine lines; each line with each other end, and blank lines before it.
    fn hex_line_ends(&mut self) {
        let lines = self.ours();
        for choice in 0..1 << lines.len() {
            let end = |place: usize| if choice >> place & 1 == 0 { &b"\n"[..] } else { b"\r\n" };
            let ends = lines.iter().enumerate().map(|(place, line)| ended(line, end(place)));
            self.hex(&ends.collect::<Vec<_>>().concat());
        }
        for place in 0..lines.len() {
            for end in WRONG_ENDS {
                let line = ended(&lines[place], end);
                self.hex(&instead(&lines, place, &line));
                self.hex(&with(&lines, place, end));
            }
        }
    }

    /// Records of every length, in both orders; of our lines any two changed, one left out, moved, and there twice.
    fn hex_layouts(&mut self) {
        for size in 1..=IMAGE {
            let mut lines = rows(&self.any_image(), size);
            self.hex(&lines.concat());
            self.hex(&cr_lf(&lower(&lines.concat())));
            lines.reverse();
            self.hex(&lines.concat());
            lines.rotate_left(1);
            self.hex(&lines.concat());
        }
        let lines = self.ours();
        for (one, other) in (0..lines.len()).flat_map(|one| (0..lines.len()).map(move |other| (one, other))) {
            let mut swapped = lines.clone();
            swapped.swap(one, other);
            self.hex(&swapped.concat());
            let mut rest = lines.clone();
            let line = rest.remove(one);
            self.hex(&rest.concat());
            self.hex(&with(&rest, other, &line));
            self.hex(&with(&lines, other, &line));
        }
    }

    /// An empty record with every address, at any place in a text; now and then with a wrong sum.
    fn hex_empty_records(&mut self) {
        let lines = self.ours();
        for address in 0..=u16::MAX {
            let place = self.maker.random.below(lines.len() as u64 + 1) as usize;
            let error = if self.maker.random.one_in(8) { self.maker.random.number() as u8 } else { 0 };
            self.hex(&with(&lines, place, &summed(DATA, address, &[], error)));
        }
    }

    /// A byte at every address; records of every length at the ends of an image and of the addresses.
    fn hex_places(&mut self) {
        for address in 0..=u16::MAX {
            let text = [record(DATA, address, &[address as u8]), CLOSE.to_vec()].concat();
            self.hex(&text);
        }
        let lines = self.ours();
        for (address, length) in
            ADDRESSES.into_iter().flat_map(|address| (0..=255).map(move |length| (address, length)))
        {
            let record = record(DATA, address, &vec![length as u8; length]);
            self.hex(&[&record, CLOSE].concat());
            self.hex(&with(&lines, 4, &record));
        }
    }

    /// A record from every address to every other, and any two about the edges; what is left is set after them. And the
    /// same without the first of them, so that what it would set is all that is not set.
    fn hex_overlaps(&mut self) {
        let image = self.any_image();
        for (start, length) in (0..=140).flat_map(|start| (0..=140).map(move |length| (start, length))) {
            let first = start..start + length;
            let lines = completed(&image, slice::from_ref(&first));
            self.hex(&lines.concat());
            self.hex(&lines[1..].concat());
        }
        let ranges: Vec<Range<usize>> =
            EDGES.iter().flat_map(|start| EDGES.map(|end| *start..end.max(*start))).collect();
        for (one, other) in ranges.iter().flat_map(|one| ranges.iter().map(move |other| (one, other))) {
            self.hex(&completed(&image, &[one.clone(), other.clone()]).concat());
        }
    }

    /// Every byte count on a line that is as long, a digit or some bytes off, and longer by what no count says.
    fn hex_counts(&mut self) {
        let lines = self.ours();
        for (count, kind) in (0..=255).flat_map(|count: usize| [DATA, END, 2].map(|kind| (count, kind))) {
            for length in [0, 1, 2, 16, 255, count.saturating_sub(1), count, count + 1, count + 256] {
                let mut bytes = vec![count as u8, 0, 0, kind];
                bytes.extend((0..length).map(|at| at as u8));
                bytes.push(bytes.iter().fold(0, |total: u8, byte| total.wrapping_sub(*byte)));
                let line = line(&bytes);
                self.hex(&line);
                self.hex(&ended(&line[..line.len() - 2], b"\n"));
                self.hex(&with(&lines, 0, &line));
                self.hex(&instead(&lines, 8, &line));
            }
        }
    }

    /// Every sum of each line of a text; every type, with any bytes anywhere, and with a right and a wrong sum.
    fn hex_sums_and_types(&mut self) {
        let image = self.any_image();
        let lines = rows(&image, 16);
        for (place, error) in (0..lines.len()).flat_map(|place| (0..=255).map(move |error| (place, error))) {
            let line = match image.chunks(16).nth(place) {
                Some(data) => summed(DATA, 16 * place as u16, data, error),
                None => summed(END, 0, &[], error),
            };
            self.hex(&instead(&lines, place, &line));
        }
        for (kind, error) in (0..=255).flat_map(|kind| [0, 1, 0x80].map(|error| (kind, error))) {
            for (address, data) in
                [(0, &[][..]), (1, &[]), (0x80, &[]), (0, &[1]), (0x7f, &[2]), (0x80, &[3]), (0, &[4; 255])]
            {
                let line = summed(kind, address, data, error);
                for place in [0, 4, 8, 9] {
                    self.hex(&with(&lines, place, &line));
                }
                self.hex(&line);
            }
        }
    }

    /// End records of every kind behind a whole image, one that lacks a row and none, with every byte after them.
    fn hex_closings(&mut self) {
        let lines = self.ours();
        let mut ends = vec![CLOSE.to_vec(), lower(CLOSE), cr_lf(CLOSE), ended(CLOSE, b""), ended(CLOSE, b"\r")];
        for (address, data) in
            [(0, &[][..]), (0, &[0]), (1, &[]), (0x100, &[]), (0xffff, &[]), (1, &[0xff]), (0, &[0; 255])]
        {
            ends.extend([0, 1].map(|error| summed(END, address, data, error)));
        }
        let mut after: Vec<Vec<u8>> = (0..=255).map(|byte| vec![byte]).collect();
        after.extend((0..=255).map(|byte| vec![byte, b'\n']));
        after.extend(kinds());
        after.extend([Vec::new(), ended(CLOSE, b""), lines[7].clone(), lines.concat()]);
        for (end, after) in ends.iter().flat_map(|end| after.iter().map(move |after| (end, after))) {
            for rows in [&lines[..8], &lines[..7], &[]] {
                self.hex(&[&rows.concat(), &end[..], after].concat());
            }
        }
    }

    /// Lines of every kind: one at every place of a text and in the stead of each line, and every two.
    fn hex_orders(&mut self) {
        let (lines, kinds) = (self.ours(), kinds());
        for (kind, place) in kinds.iter().flat_map(|kind| (0..lines.len()).map(move |place| (kind, place))) {
            self.hex(&with(&lines, place, kind));
            self.hex(&with(&lines, place + 1, kind));
            let text = instead(&lines, place, kind);
            self.hex(&text);
            self.hex(&cr_lf(&text));
            self.hex(&lower(&text));
        }
        for (one, other) in kinds.iter().flat_map(|one| kinds.iter().map(move |other| (one, other))) {
            let both = [&one[..], other].concat();
            self.hex(&both);
            self.hex(&with(&lines, 2, &both));
            self.hex(&instead(&lines, 7, &both));
            self.hex(&[one, &with(&lines, 4, other)[..]].concat());
        }
    }

    /// Every three lines of those that are not bad in their form, behind a row.
    fn hex_threes(&mut self) {
        let (lines, kinds) = (self.ours(), kinds());
        // One of bad form stands for them all.
        let kinds = &kinds[malformed().len() - 1..];
        for (one, other) in kinds.iter().flat_map(|one| kinds.iter().map(move |other| (one, other))) {
            for third in kinds {
                self.hex(&[&lines[0], &one[..], other, third, CLOSE].concat());
            }
        }
    }

    /// Texts longer than any image needs: empty records by the thousand, and lines that do not end.
    fn hex_long_texts(&mut self) {
        let lines = self.ours();
        for count in [10, 1_000, 5_000, 50_000] {
            let empty = record(DATA, 0x1234, &[]).repeat(count);
            for (place, kind) in
                [0, 8].into_iter().flat_map(|place| kinds().into_iter().step_by(6).map(move |k| (place, k)))
            {
                let (before, after) = (lines[..place].concat(), lines[place..].concat());
                self.hex(&[&before, &empty, &after[..]].concat());
                self.hex(&[&before, &empty, &kind, &after[..]].concat());
                self.hex(&[&before, &kind, &empty, &after[..]].concat());
            }
            for byte in BYTES {
                self.hex(&[lines[..3].concat(), vec![byte; count], lines[3..].concat()].concat());
                self.hex(&[&lines.concat(), &vec![byte; count][..]].concat());
                self.hex(&[&b":"[..], &vec![byte; count], b"\n", CLOSE].concat());
            }
        }
    }

    /// Texts of any layout; of these some with a line of another kind, or two, and with a byte or more put otherwise.
    fn hex_any(&mut self) {
        let kinds = kinds();
        for n in 0..60_000 {
            let image = self.any_image();
            let random = &mut self.maker.random;
            let mut lines = any_lines(random, &image);
            for _ in 0..n % 3 {
                let kind = kinds[random.below(kinds.len() as u64) as usize].clone();
                lines.insert(random.below(lines.len() as u64 + 1) as usize, kind);
            }
            let mut text = mixed(random, &lines.concat());
            for _ in 0..n / 3 % 4 {
                spoil(random, &mut text, &BYTES);
            }
            self.hex(&text);
        }
    }
}
