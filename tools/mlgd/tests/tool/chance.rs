//! Files changed by chance: each is read, or refused with a message, and nothing else happens.

use generator::{alist, codes, unlike, Random};
use mlgd::checked;
use mlgd::lines::Lines;
use mlgd::matrix_file::MatrixFile;
use mlgd::samples_file::{Form, SamplesFile};

/// A text with a few of its characters changed, left out or doubled.
fn changed(text: &str, random: &mut Random) -> String {
    let mut characters: Vec<char> = text.chars().collect();
    for _ in 0..1 + random.below(3) {
        let at = random.below(characters.len());
        let odd = [
            '0', '1', '9', ' ', ',', ';', '\t', '\n', '#', '%', '"', '-', '.', 'e', 'x',
            '\u{2212}', '\u{a0}', '\u{feff}', '\r', '\0',
        ];
        match random.below(3) {
            0 => characters[at] = *random.pick(&odd),
            1 => characters.insert(at, *random.pick(&odd)),
            _ => drop(characters.remove(at)),
        }
    }
    characters.into_iter().collect()
}

#[test]
fn matrices() {
    let mut random = Random::new(81);
    let (mut accepted, mut refused) = (0, 0);
    let dense = "111000000\n000111000\n000000111\n100100100\n010010010\n001001001\n";
    let mut forms = vec![dense.to_string()];
    for code in [codes::code_b(), unlike::code_u()] {
        let good = MatrixFile::of("h", &alist::text(&code)).unwrap().matrix;
        forms.extend([alist::text(&code), good.plain(), good.bare_rows()]);
    }
    for _ in 0..4000 {
        let text = changed(random.pick(&forms).as_str(), &mut random);
        let verdict = MatrixFile::of("h", &text).and_then(|file| {
            checked::matrix(&file)?;
            Ok(file)
        });
        match verdict {
            Ok(file) => {
                accepted += 1;
                let back = MatrixFile::of("h", &file.matrix.alist().unwrap()).unwrap();
                assert_eq!(back.matrix, file.matrix, "{text}");
            }
            Err(fault) => {
                refused += 1;
                assert!(fault.to_string().starts_with("h:"), "{fault}");
                assert!(fault.to_string().contains(", "), "{fault}");
            }
        }
    }
    assert!(accepted > 100 && refused > 2000, "{accepted} and {refused}");
}

/// What is read without a message has the samples of the file, n to a block.
#[test]
fn samples() {
    let mut random = Random::new(82);
    let files = [
        "1.5,-1,0.25\n-1,-1,-1\n",
        "1.5;-1;0.25\n\n-1;-1;-1\n",
        "1.5\n-1\n0.25\n-1\n-1\n-1\n",
        "\"1.5\" \"-1\" \"0.25\"\n-1 -1 -1 # end\n",
        "a;b;c\nx;1,5;-1\n",
    ];
    let (mut read, mut refused) = (0, 0);
    for _ in 0..8000 {
        let file = files[random.below(files.len())];
        let text = changed(file, &mut random);
        let form = Form {
            header: random.once_in(4),
            skip: usize::from(random.once_in(4)),
            decimal_comma: random.once_in(4),
        };
        let lines = Lines::of("y", std::io::Cursor::new(text.clone().into_bytes()), None);
        let mut file = SamplesFile::of(lines, 3, form);
        let mut block = Vec::new();
        loop {
            match file.next_block(&mut block) {
                Ok(Some(_)) => assert_eq!(block.len(), 3, "{text}"),
                Ok(None) => {
                    read += 1;
                    break;
                }
                Err(fault) => {
                    refused += 1;
                    assert!(fault.to_string().starts_with("y:"), "{fault}");
                    break;
                }
            }
        }
    }
    assert!(read > 200 && refused > 2000, "{read} and {refused}");
}
