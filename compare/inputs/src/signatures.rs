//! Random data sets with MAC parameters and digital signatures.

use crate::coding::{Element, Item, Value};
use crate::data_sets::{draw_elements, draw_tag, Style};
use crate::random::Random;
use crate::tag_lists::tag_list;
use independent::reading::Tag;
use independent::signature_mode::{
    CERTIFICATE_OF_SIGNER, CERTIFIED_TIMESTAMP, CERTIFIED_TIMESTAMP_TYPE, DATA_ELEMENTS_SIGNED,
    DIGITAL_SIGNATURES_SEQUENCE, MAC_ALGORITHM, MAC_CALCULATION_TRANSFER_SYNTAX_UID, MAC_ID_NUMBER,
    MAC_PARAMETERS_SEQUENCE, SIGNATURE,
};

pub const EXPLICIT_VR_LITTLE_ENDIAN: &str = "1.2.840.10008.1.2.1";

/// Transfer syntaxes that may be signed in; one has an even length.
const GOOD_UIDS: [&str; 4] = [
    EXPLICIT_VR_LITTLE_ENDIAN,
    "1.2.840.10008.1.2.5",
    "1.2.840.10008.1.2.4.50",
    "1.2.840.10008.1.2.4.100",
];

const REFUSED_UIDS: [&str; 2] = ["1.2.840.10008.1.2", "1.2.840.10008.1.2.2"];

/// The tags that are left out of the signature item.
const NAMED: [Tag; 4] =
    [CERTIFICATE_OF_SIGNER, SIGNATURE, CERTIFIED_TIMESTAMP_TYPE, CERTIFIED_TIMESTAMP];

/// A data set, and what a caller says of it in signature mode.
pub struct Signed {
    pub elements: Vec<Element>,
    pub uid: Vec<u8>,
    pub which: Option<usize>,
}

/// `body` with parameters and signatures: good ones, or with faults here and
/// there.
pub fn signed(random: &mut Random, body: Vec<Element>) -> Signed {
    let faults = random.pick(&[0, 0, 2, 5, 12]);
    let drawn =
        if random.chance(faults) { random.pick(&REFUSED_UIDS) } else { random.pick(&GOOD_UIDS) };
    let mut maker = Maker { random, faults };
    let mut elements = body;
    elements.retain(|element| {
        element.tag != MAC_PARAMETERS_SEQUENCE.0 && element.tag != DIGITAL_SIGNATURES_SEQUENCE.0
    });
    let numbers: Vec<u16> = (0..maker.random.between(1, 3)).map(|_| maker.mac_id()).collect();
    let parameters =
        numbers.iter().map(|&number| maker.parameters(number, drawn, &elements)).collect();
    let count = maker.random.between(1, 3);
    let signatures: Vec<Item> = (0..count)
        .map(|_| {
            let number = if maker.fault() { maker.mac_id() } else { maker.random.pick(&numbers) };
            maker.signature(number)
        })
        .collect();
    maker.add(&mut elements, MAC_PARAMETERS_SEQUENCE.0, parameters);
    maker.add(&mut elements, DIGITAL_SIGNATURES_SEQUENCE.0, signatures);
    let which = maker.which(count);
    Signed { elements, uid: maker.callers_uid(drawn), which }
}

/// Makes the parts; each may be faulty in `faults` of a hundred cases.
struct Maker<'r> {
    random: &'r mut Random,
    faults: usize,
}

impl Maker<'_> {
    fn fault(&mut self) -> bool {
        self.random.chance(self.faults)
    }

    /// Few numbers, so that some items share one.
    fn mac_id(&mut self) -> u16 {
        self.random.pick(&[0, 1, 2, 0x0100, 0xFFFF])
    }

    /// Adds a sequence in its place: absent or of another VR by a fault.
    fn add(&mut self, elements: &mut Vec<Element>, tag: u32, items: Vec<Item>) {
        let undefined = self.random.chance(50);
        let element = match (self.fault(), self.random.below(4)) {
            (true, 0) => return,
            (true, 1) => Element::bytes(tag, b"OB", b""),
            (true, 2) => Element::bytes(tag, b"UN", b"\0\0"),
            (true, _) => Element::sequence(tag, vec![], undefined),
            (false, _) => Element::sequence(tag, items, undefined),
        };
        let at = elements.partition_point(|other| other.tag < tag);
        elements.insert(at, element);
    }

    /// MAC ID Number.
    fn number_element(&mut self, number: u16) -> Option<Element> {
        const TAG: u32 = MAC_ID_NUMBER.0;
        let value = number.to_le_bytes();
        match (self.fault(), self.random.below(4)) {
            (true, 0) => None,
            (true, 1) => Some(Element::bytes(TAG, b"SS", &value)),
            (true, 2) => Some(Element::bytes(TAG, b"US", &[value, value].concat())),
            (true, _) => Some(Element::bytes(TAG, b"US", b"")),
            (false, _) => Some(Element::bytes(TAG, b"US", &value)),
        }
    }

    fn parameters(&mut self, number: u16, uid: &str, body: &[Element]) -> Item {
        let mut elements = Vec::new();
        elements.extend(self.number_element(number));
        elements.extend(self.uid_element(uid));
        elements.extend(self.algorithm_element());
        elements.extend(self.list_element(body));
        self.item(elements)
    }

    /// MAC Calculation Transfer Syntax UID.
    fn uid_element(&mut self, uid: &str) -> Option<Element> {
        const TAG: u32 = MAC_CALCULATION_TRANSFER_SYNTAX_UID.0;
        match (self.fault(), self.random.below(7)) {
            (true, 0) => None,
            (true, 1) => Some(Element::text(TAG, b"LO", uid, b' ')),
            (true, 2) => Some(Element::bytes(TAG, b"UI", b"")),
            (true, 3) => Some(Element::text(TAG, b"UI", self.random.pick(&REFUSED_UIDS), 0)),
            (true, 4) => Some(Element::bytes(TAG, b"UI", b"\0\0")),
            (true, 5) => Some(Element::text(TAG, b"UI", uid, b' ')),
            (true, _) => Some(Element::text(TAG, b"UI", &format!("{uid}\0\0"), 0)),
            (false, _) => Some(Element::text(TAG, b"UI", uid, 0)),
        }
    }

    /// MAC Algorithm.
    fn algorithm_element(&mut self) -> Option<Element> {
        const TAG: u32 = MAC_ALGORITHM.0;
        const OTHERS: [&str; 9] = [
            "", "SHA1", "SHA512", "sha256", " SHA256 ", "SHA256\0\0", "SHA256 \0", "SHA256\t",
            "SHA2560 ",
        ];
        match (self.fault(), self.random.below(5)) {
            (true, 0) => None,
            (true, 1) => Some(Element::text(TAG, b"SH", "SHA256", b' ')),
            (true, _) => Some(Element::text(TAG, b"CS", self.random.pick(&OTHERS), b' ')),
            (false, 0) => Some(Element::text(TAG, b"CS", "SHA256    ", b' ')),
            (false, _) => Some(Element::text(TAG, b"CS", "SHA256", b' ')),
        }
    }

    /// Data Elements Signed.
    fn list_element(&mut self, body: &[Element]) -> Option<Element> {
        const TAG: u32 = DATA_ELEMENTS_SIGNED.0;
        let mut list = tag_list(self.random, body);
        list.truncate(list.len() - list.len() % 2);
        match (self.fault(), self.random.below(3)) {
            (true, 0) => None,
            (true, 1) => Some(Element::bytes(TAG, b"UL", &list)),
            (true, _) => Some(Element::bytes(TAG, b"OB", &list)),
            (false, _) => Some(Element::bytes(TAG, b"AT", &list)),
        }
    }

    fn signature(&mut self, number: u16) -> Item {
        let mut elements = Vec::new();
        elements.extend(self.number_element(number));
        elements.push(Element::text(0x0400_0100, b"UI", "1.2.276.0.7230010.3.0", 0));
        elements.push(Element::text(0x0400_0105, b"DT", "20240229120000.000000+0100", b' '));
        elements.push(Element::text(0x0400_0110, b"CS", "X509_1993_SIG", b' '));
        elements.push(self.of_any_bytes(CERTIFICATE_OF_SIGNER.0));
        elements.push(self.of_any_bytes(SIGNATURE.0));
        if self.random.chance(25) {
            elements.push(Element::text(CERTIFIED_TIMESTAMP_TYPE.0, b"CS", "CMS_TSP ", b' '));
            elements.push(self.of_any_bytes(CERTIFIED_TIMESTAMP.0));
        }
        if self.random.chance(40) {
            elements.push(self.purpose());
        }
        for _ in 0..self.random.pick(&[0, 0, 1, 2]) {
            elements.push(self.other_element());
        }
        self.item(elements)
    }

    /// A certificate, signature or timestamp; fragments or UN now and then.
    fn of_any_bytes(&mut self, tag: u32) -> Element {
        let bytes = self.random.bytes(8);
        match self.random.below(10) {
            0 => Element::fragments(tag, vec![bytes]),
            1 => Element::bytes(tag, b"UN", &bytes),
            _ => Element::bytes(tag, b"OB", &bytes),
        }
    }

    /// Digital Signature Purpose Code Sequence, with the four named tags,
    /// barred ones and UN inside now and then.
    fn purpose(&mut self) -> Element {
        let mut inside = vec![Element::text(0x0008_0100, b"SH", "1", b' ')];
        if self.random.chance(30) {
            let named = self.random.pick(&NAMED);
            inside.push(self.of_any_bytes(named.0));
        }
        if self.random.chance(30) {
            inside.push(self.other_element());
        }
        let item = self.item(inside);
        Element::sequence(0x0400_0401, vec![item], self.random.chance(50))
    }

    /// Any other element: plain, barred, UN or a sequence.
    fn other_element(&mut self) -> Element {
        let style = Style { unknown: 20, barred: 20, sequences: 30, fragments: 10 };
        let tag = draw_tag(self.random, 30);
        if self.random.chance(40) {
            let items = vec![Item {
                elements: draw_elements(self.random, style, 1),
                undefined: self.random.chance(50),
            }];
            return Element::sequence(tag, items, self.random.chance(50));
        }
        let vr = *self.random.pick(&[b"UN", b"LO", b"OB"]);
        Element { tag, vr, value: Value::Bytes(self.random.bytes(2)) }
    }

    /// An item with its elements in order, each tag once.
    fn item(&mut self, mut elements: Vec<Element>) -> Item {
        elements.sort_by_key(|element| element.tag);
        elements.dedup_by_key(|element| element.tag);
        Item { elements, undefined: self.random.chance(50) }
    }

    /// Which of `count` signatures: none, one of them, past the last, huge.
    fn which(&mut self, count: usize) -> Option<usize> {
        if self.fault() {
            return Some(self.random.pick(&[count, count + 1, 1 << 32, usize::MAX]));
        }
        match self.random.below(3) {
            0 => None,
            1 => Some(0),
            _ => Some(self.random.below(count)),
        }
    }

    fn callers_uid(&mut self, uid: &str) -> Vec<u8> {
        match (self.fault(), self.random.below(4)) {
            (true, 0) => Vec::new(),
            (true, 1) => format!("{uid}\0").into_bytes(),
            (true, 2) => b"\0".to_vec(),
            (true, _) => self.random.pick(&GOOD_UIDS).as_bytes().to_vec(),
            (false, _) => uid.as_bytes().to_vec(),
        }
    }
}

#[cfg(test)]
mod tests {
    use super::*;
    use crate::coding::code;
    use independent::signature_mode;

    #[test]
    fn every_refusal_of_the_selection_occurs() {
        let mut occurred = [0; 26];
        for index in 0..5_000 {
            let mut random = Random::of_case(1, index);
            let style = Style::any(&mut random);
            let body = draw_elements(&mut random, style, 0);
            let signed = signed(&mut random, body);
            let data = code(&signed.elements).bytes;
            let streamed = signature_mode::stream(&data, &signed.uid, signed.which, usize::MAX);
            occurred[streamed.answer.number as usize] += 1;
        }
        for number in [0, 10, 11, 12, 13, 14, 15, 18, 19, 20, 21, 22, 23] {
            assert!(occurred[number] > 20, "{number}: {occurred:?}");
        }
        assert!((1..9).all(|number| occurred[number] == 0), "well-formed: {occurred:?}");
    }
}
