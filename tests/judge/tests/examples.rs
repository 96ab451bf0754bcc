//! The shelf examples and edges, put to the judge; and the program.

use judge::{ask, evaluate, refusal, Outcome};

include!("../../cases/shelf.rs");

mod program {
    use super::*;
    use std::path::PathBuf;
    use std::process::Command;

    fn folder(name: &str) -> PathBuf {
        let folder = PathBuf::from(env!("CARGO_TARGET_TMPDIR")).join(name);
        let _ = std::fs::remove_dir_all(&folder);
        std::fs::create_dir_all(&folder).unwrap();
        folder
    }

    fn bytes_of(values: &[i32]) -> Vec<u8> {
        values
            .iter()
            .flat_map(|value| value.to_le_bytes())
            .collect()
    }

    fn output(name: &str, files: &[(&str, &[u8])]) -> String {
        let folder = folder(name);
        for (file, bytes) in files {
            std::fs::write(folder.join(file), bytes).unwrap();
        }
        let program = env!("CARGO_BIN_EXE_program");
        let output = Command::new(program).current_dir(folder).output().unwrap();
        String::from_utf8(output.stdout).unwrap()
    }

    const QUERY_4_2: [u8; 7] = [34, 3, 0, 0, 2, 16, 16];

    #[test]
    fn section_4_2() {
        let values = bytes_of(&EMPLOYEE.concat());
        let printed = output(
            "section_4_2",
            &[
                ("catalogue", &CATALOGUE[..4]),
                ("values", &values),
                ("permits", &PERMIT_4_2),
                ("question", &QUERY_4_2),
            ],
        );
        let expected = "rows 1\ncolumns 1\nquestion 18\n\
                        34 3 0 0 2 19 16 21 1 33 0 1 32 1 0 0 0 16\n12500\n";
        assert_eq!(printed, expected);
    }

    #[test]
    fn rows_of_several_cells() {
        let printed = output(
            "rows_of_several_cells",
            &[
                ("catalogue", &[49, 2, 2, 0]),
                ("values", &bytes_of(&[1, -2, 3, 4])),
                ("question", &[1, 0, 0, 33, 0, 0, 33, 0, 1, 16]),
            ],
        );
        assert_eq!(
            printed,
            "rows 2\ncolumns 2\nquestion 10\n1 0 0 33 0 0 33 0 1 16\n1 -2\n3 4\n"
        );
    }

    #[test]
    fn refusals() {
        assert_eq!(output("no_files", &[]), "refused 10\n");
        let catalogue: &[u8] = &[48, 1, 1, 0];
        let question: &[u8] = &[1, 0, 0, 33, 0, 0, 16];
        let with_values = |name: &str, values: &[u8]| {
            output(
                name,
                &[
                    ("catalogue", catalogue),
                    ("values", values),
                    ("question", question),
                ],
            )
        };
        assert_eq!(with_values("no_permit", &[5, 0, 0, 0]), "refused 33\n");
        assert_eq!(with_values("no_multiple", &[5, 0, 0, 0, 0]), "refused 11\n");
        assert_eq!(
            output("no_query", &[("catalogue", &[48, 1, 0, 0])]),
            "refused 30\n"
        );
    }

    /// 8,192 values pass; 9,216 give 11 although they are the catalogue's total.
    #[test]
    fn values_up_to_8192() {
        let with_relations = |name: &str, relations: usize| {
            let catalogue = [49, 1, 0, 4].repeat(relations);
            let values = vec![0; 4 * 1024 * relations];
            let question: &[u8] = &[34, 1, 0, 0, 0, 16, 16];
            output(
                name,
                &[
                    ("catalogue", &catalogue),
                    ("values", &values),
                    ("question", question),
                ],
            )
        };
        let passed = "rows 1\ncolumns 1\nquestion 7\n34 1 0 0 0 16 16\n1024\n";
        assert_eq!(with_relations("values_8192", 8), passed);
        assert_eq!(with_relations("values_9216", 9), "refused 11\n");
    }
}
