// The relations of the examples, as document 000 has them, and the permits of 3.3. Included by the cases that use them.

const EMPLOYEE: [[i32; 4]; 6] = [
    [1, 1, 10_000, 2],
    [2, 1, 15_000, 8],
    [3, 2, 12_000, 5],
    [4, 2, 14_000, 7],
    [5, 4, 20_000, 6],
    [6, 4, 40_000, 0],
];

const DEPARTMENT: [[i32; 4]; 5] = [
    [1, -1, 10, 1000],
    [2, 1, 5, 2000],
    [3, 1, 16, 1500],
    [4, 4, 10, 0],
    [5, 2, 3, 0],
];

const CATALOGUE: [u8; 8] = [48, 4, 6, 0, 48, 4, 5, 0];

const PERMITS_3_3: [&[u8]; 4] = [
    &[64, 0, 12, 0, 16],
    &[64, 0, 11, 0, 21, 2, 33, 0, 0, 32, 5, 0, 0, 0],
    &[
        64, 0, 13, 0, 22, 1, 0, 19, 21, 1, 33, 1, 0, 33, 0, 3, 21, 5, 33, 0, 2, 33, 1, 2,
    ],
    &[64, 1, 255, 255, 21, 5, 33, 0, 3, 34, 3, 1, 1, 3, 16],
];

fn values() -> Vec<i32> {
    [EMPLOYEE.concat(), DEPARTMENT.concat()].concat()
}
