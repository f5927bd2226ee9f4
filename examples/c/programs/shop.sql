-- Tables, indexes, joins, windows, recursion, dates, text, transactions, and a fault at the end.
CREATE TABLE item(id INTEGER PRIMARY KEY, name TEXT UNIQUE, price REAL CHECK(price >= 0));
CREATE TABLE sold(item REFERENCES item(id), day TEXT, count INTEGER);
CREATE INDEX by_day ON sold(day);
INSERT INTO item(name, price) VALUES ('tea', 2.5), ('bread', 1.25), ('cheese', 7.125), ('apple', 0.3);
WITH RECURSIVE n(i) AS (SELECT 1 UNION ALL SELECT i + 1 FROM n WHERE i < 200)
INSERT INTO sold SELECT i * 7 % 4 + 1, date('2000-01-01', (i % 30) || ' days'), i * 31 % 17 FROM n;
SELECT name, sum(count), round(sum(count * price), 2), min(day), max(day) FROM sold JOIN item ON item.id = sold.item GROUP BY name ORDER BY 3 DESC;
SELECT day, total, rank() OVER (ORDER BY total DESC) FROM (SELECT day, sum(count) AS total FROM sold GROUP BY day) LIMIT 5;
SELECT group_concat(name, '+'), upper(max(name)), printf('%08.3f', avg(price)), hex(randomblob(0)), typeof(1 / 2.0), 7 / 2, 1e300 * 10 FROM item;
SELECT name FROM item WHERE name LIKE '%e%' AND name GLOB '[a-c]*' ORDER BY length(name), name;
BEGIN; DELETE FROM sold WHERE count > 8; SELECT count(*) FROM sold; ROLLBACK; SELECT count(*) FROM sold;
CREATE TRIGGER cheaper AFTER UPDATE ON item BEGIN INSERT INTO sold VALUES (new.id, 'changed', old.price - new.price); END;
UPDATE item SET price = price * 0.5 WHERE price > 2;
SELECT item, count FROM sold WHERE day = 'changed';
SELECT json_extract('{"a": [1, {"b": "two"}]}', '$.a[1].b'), json_array_length('[1, 2, 3]'), julianday('now');
EXPLAIN QUERY PLAN SELECT * FROM sold WHERE day = '2000-01-05';
PRAGMA integrity_check;
INSERT INTO item(name, price) VALUES ('tea', 1);
