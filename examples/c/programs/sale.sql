-- A database of some MB, with a cache of 8 MiB and an index, and what is asked of it.
PRAGMA cache_size = -8192;
PRAGMA cache_size;
CREATE TABLE sale (id INTEGER PRIMARY KEY, shop INT, price INT, note TEXT);
BEGIN;
WITH RECURSIVE n(i) AS (SELECT 1 UNION ALL SELECT i + 1 FROM n WHERE i < 15000)
INSERT INTO sale SELECT i, i * 7919 % 97, i * i % 10007, printf('sale %d of shop %d, told at length so that a row takes room', i, i * 7919 % 97) FROM n;
COMMIT;
CREATE INDEX by_shop ON sale (shop, price);
SELECT count(*), sum(price), max(length(note)) FROM sale;
SELECT shop, count(*), avg(price) FROM sale GROUP BY shop ORDER BY 3 DESC LIMIT 5;
SELECT note FROM sale WHERE shop = 42 ORDER BY price DESC, id LIMIT 3;
UPDATE sale SET price = price + 1 WHERE shop < 10;
DELETE FROM sale WHERE id % 5 = 0;
SELECT count(*), sum(price) FROM sale;
SELECT a.id, b.id FROM sale a JOIN sale b ON a.price = b.price AND a.id < b.id WHERE a.shop = 3 AND b.shop = 5 ORDER BY 1, 2 LIMIT 5;
PRAGMA page_count;
PRAGMA integrity_check;
