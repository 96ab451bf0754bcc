CREATE TABLE offer(article INTEGER, rank INTEGER, number INTEGER, price INTEGER, brand INTEGER, region INTEGER, stock INTEGER);
CREATE TABLE brand(id INTEGER, tier INTEGER, owner INTEGER);
CREATE TABLE store(id INTEGER, region INTEGER, tier INTEGER, size INTEGER);
