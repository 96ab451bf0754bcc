CREATE TABLE offer(article INTEGER, rank INTEGER, number INTEGER, price INTEGER, brand INTEGER, region INTEGER, stock INTEGER);
CREATE TABLE zone(id INTEGER, kind INTEGER, minprice INTEGER, store INTEGER);
