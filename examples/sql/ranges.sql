-- Readings of sensors by time. A key is a sensor's name and a number of fixed length, so
-- that keys are in the order of time.
CREATE VIRTUAL TABLE readings USING hot(keys=3000, longest=24);

INSERT INTO readings
WITH RECURSIVE
    times(time) AS (SELECT 0 UNION ALL SELECT time + 1 FROM times WHERE time < 999),
    sensors(sensor) AS (VALUES ('a'), ('b'), ('c'))
SELECT printf('%s %06d', sensor, time), time * 7 % 100 FROM sensors, times;

-- From a time on and before another.
SELECT printf('%s %d: %d', substr(key, 1, 1), substr(key, 3), value)
FROM readings
WHERE key >= 'b 000254' AND key < 'b 000258'
ORDER BY key;

-- The last three of a sensor, the latest first.
SELECT printf('%s %d: %d', substr(key, 1, 1), substr(key, 3), value)
FROM readings
WHERE key GLOB 'a *'
ORDER BY key DESC
LIMIT 3;

-- All of a sensor.
SELECT printf('c: %d readings, %d in all', count(*), sum(value))
FROM readings
WHERE key LIKE 'c %';
