CREATE TABLE offer(article INTEGER, rank INTEGER, number INTEGER, price INTEGER, brand INTEGER, region INTEGER, stock INTEGER);
