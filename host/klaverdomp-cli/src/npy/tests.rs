use super::*;

fn file(version: u8, header: &str, elements: &[u8]) -> Vec<u8> {
    let mut bytes = MAGIC.to_vec();
    bytes.extend([version, 0]);
    match version {
        1 => bytes.extend((header.len() as u16).to_le_bytes()),
        _ => bytes.extend((header.len() as u32).to_le_bytes()),
    }
    bytes.extend(header.as_bytes());
    bytes.extend(elements);
    bytes
}

const ANY: [Kind; 3] = [Kind::F4, Kind::I8, Kind::Bytes];

fn error(bytes: &[u8]) -> String {
    read_from(bytes, &ANY).expect_err("a bad file").to_string()
}

/// The words for a file of this type where these kinds are needed.
fn other_type(descr: &str, needed: &[Kind]) -> String {
    let file = file(1, &format!("{{'descr': {descr}, 'fortran_order': False, 'shape': ()}}"), &[0; 8]);
    read_from(&file[..], needed).expect_err("another type").words(needed)
}

#[test]
fn what_is_written_is_read_back() {
    for shape in [vec![], vec![3], vec![1, 2, 3, 4], vec![2, 0, 5]] {
        let elements: Vec<f32> = (0..shape.iter().product()).map(|n| n as f32 - 0.5).collect();
        let mut bytes = Vec::new();
        write_to(&mut bytes, &shape, &elements).unwrap();
        assert_eq!((bytes.len() - 4 * elements.len()) % 64, 0);
        assert_eq!(read_from(&bytes[..], &ANY).unwrap(), Tensor { shape, data: Data::F32(elements) });
    }
}

#[test]
fn versions_types_and_spellings() {
    let header = "{'descr': '<i8', 'fortran_order': False, 'shape': (2,), }\n";
    for version in 1..4 {
        let tensor =
            read_from(&file(version, header, &[1, 0, 0, 0, 0, 0, 0, 0, 255, 255, 255, 255, 255, 255, 255, 255])[..], &ANY);
        assert_eq!(tensor.unwrap(), Tensor { shape: vec![2], data: Data::I64(vec![1, -1]) });
    }
    let header = "{\"shape\":(2,1),\"descr\":\"|b1\",\"fortran_order\":False}";
    let tensor = read_from(&file(2, header, &[1, 0])[..], &ANY).unwrap();
    assert_eq!(tensor, Tensor { shape: vec![2, 1], data: Data::Bytes(vec![1, 0]) });
}

#[test]
fn bad_files_in_words() {
    let good = file(1, "{'descr': '<f4', 'fortran_order': False, 'shape': (1, 2), }\n", &[0; 8]);
    assert!(read_from(&good[..], &ANY).is_ok());
    for end in 0..good.len() {
        let words = error(&good[..end]);
        assert!(words.contains("ends inside") || words.contains("cut short"), "{words}");
    }
    assert!(error(&[&good[..], &[0]].concat()).contains("too long"));
    assert!(error(&file(4, "{}", &[])).contains("version 4"));
    assert!(error(&file(2, "{}", &[])).contains("without descr"));
    assert!(error(&file(1, "{'descr': '<f8', 'fortran_order': False, 'shape': ()}", &[0; 8])).contains("'<f8'"));
    assert!(error(&file(1, "{'descr': '>f4', 'fortran_order': False, 'shape': ()}", &[0; 4])).contains("'>f4'"));
    assert!(error(&file(1, "{'descr': '<f4', 'fortran_order': True, 'shape': (2, 1)}", &[0; 8])).contains("Fortran"));
    assert!(error(&file(1, "{'descr': [('x', '<f4')], 'fortran_order': True, 'shape': (1,)}", &[0; 8])).contains("structured"));
    assert!(error(&file(1, "{'descr': '<f4', 'fortran_order': False, 'shape': (18446744073709551615, 2)}", &[]))
        .contains("too large"));
    assert!(error(&file(1, "{'descr': '<f4', 'fortran_order': False, 'shape': (99999999999999999999,)}", &[]))
        .contains("whole number"));
    assert!(error(&file(1, "{'descr': '<f4', 'fortran_order': False, 'shape': (1 2)}", &[])).contains("')' is missing"));
    assert!(error(&file(1, "{'descr': '<f4'", &[])).contains("missing"));
    let mut long = file(2, "", &[]);
    long[8..12].copy_from_slice(&[255; 4]);
    assert!(error(&long).contains("4294967295"));
}

#[test]
fn other_types_in_words() {
    let words = "holds elements of type '<f8', and '<f4' is needed; in NumPy x.astype('<f4') converts them";
    assert_eq!(other_type("'<f8'", &[Kind::F4]), words);
    assert!(other_type("'>f4'", &[Kind::F4]).starts_with("holds elements of type '>f4' (big-endian), and '<f4' is needed; "));
    assert!(other_type("'|u1'", &[Kind::F4]).contains("type '|u1', and '<f4' is needed"));
    assert!(other_type("[('x', '<f4')]", &[Kind::F4]).contains("a structured type, and '<f4' is needed"));
    let words = "and '|b1' or '|u1' or '<f4' is needed; in NumPy x.astype(bool) or x.astype('<f4') converts them";
    assert!(other_type("'<i8'", &[Kind::Bytes, Kind::F4]).contains(words));
    assert!(other_type("'<i4'", &[Kind::I8]).contains("'<i8' is needed; in NumPy x.astype('<i8')"));
    assert!(error(b"PK\x03\x04 and more").contains("is an archive (.npz), and a .npy file of one tensor is needed"));
    assert!(error(b"something else").contains("is not a .npy file"));
}

#[test]
fn any_damage_gets_an_answer() {
    let good = file(1, "{'descr': '<f4', 'fortran_order': False, 'shape': (1, 2), }\n", &[0; 8]);
    for at in 0..good.len() {
        for byte in [0, 9, 32, 39, 40, 44, 58, 127, 200, 255] {
            let mut damaged = good.clone();
            damaged[at] = byte;
            let _ = read_from(&damaged[..], &ANY);
        }
    }
}
