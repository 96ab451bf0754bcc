CREATE TABLE employee(name INTEGER, dept INTEGER, salary INTEGER, manager INTEGER);
