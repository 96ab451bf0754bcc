CREATE INDEX employee_name ON employee(name);
