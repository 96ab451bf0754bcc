CREATE INDEX zone_min ON zone(minprice, kind, store);
