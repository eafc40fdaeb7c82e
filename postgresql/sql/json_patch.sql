CREATE EXTENSION json_patch;
\pset format unaligned
\pset tuples_only on
\pset null NULL
-- RFC 6902, appendix A, where the document is given that the patch leaves
CREATE TABLE rfc6902 (part text, document text, patch text, expected text);
INSERT INTO rfc6902 VALUES
    ('A.1', '{"foo":"bar"}', '[{"op":"add","path":"/baz","value":"qux"}]', '{"baz":"qux","foo":"bar"}'),
    ('A.2', '{"foo":["bar","baz"]}', '[{"op":"add","path":"/foo/1","value":"qux"}]', '{"foo":["bar","qux","baz"]}'),
    ('A.3', '{"baz":"qux","foo":"bar"}', '[{"op":"remove","path":"/baz"}]', '{"foo":"bar"}'),
    ('A.4', '{"foo":["bar","qux","baz"]}', '[{"op":"remove","path":"/foo/1"}]', '{"foo":["bar","baz"]}'),
    ('A.5', '{"baz":"qux","foo":"bar"}', '[{"op":"replace","path":"/baz","value":"boo"}]', '{"baz":"boo","foo":"bar"}'),
    ('A.6', '{"foo":{"bar":"baz","waldo":"fred"},"qux":{"corge":"grault"}}', '[{"op":"move","from":"/foo/waldo","path":"/qux/thud"}]', '{"foo":{"bar":"baz"},"qux":{"corge":"grault","thud":"fred"}}'),
    ('A.7', '{"foo":["all","grass","cows","eat"]}', '[{"op":"move","from":"/foo/1","path":"/foo/3"}]', '{"foo":["all","cows","eat","grass"]}'),
    ('A.8', '{"baz":"qux","foo":["a",2,"c"]}', '[{"op":"test","path":"/baz","value":"qux"},{"op":"test","path":"/foo/1","value":2}]', '{"baz":"qux","foo":["a",2,"c"]}'),
    ('A.10', '{"foo":"bar"}', '[{"op":"add","path":"/child","value":{"grandchild":{}}}]', '{"foo":"bar","child":{"grandchild":{}}}'),
    ('A.11', '{"foo":"bar"}', '[{"op":"add","path":"/baz","value":"qux","xyz":123}]', '{"foo":"bar","baz":"qux"}'),
    ('A.14', '{"/":9,"~1":10}', '[{"op":"test","path":"/~01","value":10}]', '{"/":9,"~1":10}'),
    ('A.16', '{"foo":["bar"]}', '[{"op":"add","path":"/foo/-","value":["abc","def"]}]', '{"foo":["bar",["abc","def"]]}');
SELECT count(*) FROM rfc6902 WHERE json_patch_apply(document::jsonb, patch::jsonb) = expected::jsonb AND json_patch_apply(document::jsonb, patch::json) = expected::jsonb
    AND json_patch_apply(document::json, patch::json)::jsonb = expected::jsonb AND json_patch_apply(document::json, patch::jsonb)::jsonb = expected::jsonb;
SELECT count(*) FROM rfc6902 WHERE json_patch_apply(expected::jsonb, json_patch_inverse(document::jsonb, patch::jsonb)) = document::jsonb
    AND json_patch_apply(expected::json, json_patch_inverse(document::json, patch::jsonb))::jsonb = document::jsonb
    AND json_patch_apply(document::jsonb, json_patch_diff(document::jsonb, expected::jsonb)) = expected::jsonb
    AND json_patch_apply(document::json, json_patch_diff(document::json, expected::json))::jsonb = expected::jsonb;
-- A.9, A.12, A.15, and of A.13 what jsonb leaves of an object with two members of one name
SELECT json_patch_apply('{"baz":"qux"}'::jsonb, '[{"op":"test","path":"/baz","value":"bar"}]');
SELECT json_patch_apply('{"foo":"bar"}'::jsonb, '[{"op":"add","path":"/baz/bat","value":"qux"}]');
SELECT json_patch_apply('{"/":9,"~1":10}'::jsonb, '[{"op":"test","path":"/~01","value":"10"}]');
SELECT json_patch_apply('{"foo":"bar"}'::jsonb, '[{"op":"add","path":"/baz","value":"qux","op":"remove"}]');
-- RFC 7396, appendix A
CREATE TABLE rfc7396 (document text, patch text, expected text);
INSERT INTO rfc7396 VALUES
    ('{"a":"b"}', '{"a":"c"}', '{"a":"c"}'), ('{"a":"b"}', '{"b":"c"}', '{"a":"b","b":"c"}'), ('{"a":"b"}', '{"a":null}', '{}'),
    ('{"a":"b","b":"c"}', '{"a":null}', '{"b":"c"}'), ('{"a":["b"]}', '{"a":"c"}', '{"a":"c"}'), ('{"a":"c"}', '{"a":["b"]}', '{"a":["b"]}'),
    ('{"a":{"b":"c"}}', '{"a":{"b":"d","c":null}}', '{"a":{"b":"d"}}'), ('{"a":[{"b":"c"}]}', '{"a":[1]}', '{"a":[1]}'),
    ('["a","b"]', '["c","d"]', '["c","d"]'), ('{"a":"b"}', '["c"]', '["c"]'), ('{"a":"foo"}', 'null', 'null'), ('{"a":"foo"}', '"bar"', '"bar"'),
    ('{"e":null}', '{"a":1}', '{"e":null,"a":1}'), ('[1,2]', '{"a":"b","c":null}', '{"a":"b"}'), ('{}', '{"a":{"bb":{"ccc":null}}}', '{"a":{"bb":{}}}');
SELECT count(*) FROM rfc7396 WHERE json_patch_merge(document::jsonb, patch::jsonb) = expected::jsonb AND json_patch_merge(document::jsonb, patch::json) = expected::jsonb
    AND json_patch_merge(document::json, patch::json)::jsonb = expected::jsonb AND json_patch_merge(document::json, patch::jsonb)::jsonb = expected::jsonb;
-- RFC 6901, section 5
CREATE TABLE rfc6901 (pointer text, expected text);
INSERT INTO rfc6901 VALUES ('', '{"foo": ["bar", "baz"], "": 0, "a/b": 1, "c%d": 2, "e^f": 3, "g|h": 4, "i\\j": 5, "k\"l": 6, " ": 7, "m~n": 8}'),
    ('/foo', '["bar", "baz"]'), ('/foo/0', '"bar"'), ('/', '0'), ('/a~1b', '1'), ('/c%d', '2'), ('/e^f', '3'), ('/g|h', '4'), ('/i\j', '5'), ('/k"l', '6'), ('/ ', '7'), ('/m~0n', '8');
SELECT count(*) FROM rfc6901, (SELECT expected FROM rfc6901 WHERE pointer = '') whole (document)
    WHERE json_patch_value(document::jsonb, pointer) = expected::jsonb AND json_patch_value(document::json, pointer)::text = expected;
SELECT json_patch_value('{"a":null}'::jsonb, '/a'), json_patch_value('{"a":null}'::jsonb, '/b'), json_patch_value('[1, 2 ]'::json, '/1'), json_patch_value('[1]'::json, '/-');
-- NULL of SQL, and null of JSON
SELECT json_patch_apply(NULL::jsonb, '[]'), json_patch_apply('{}'::jsonb, NULL), json_patch_inverse('{}'::json, NULL), json_patch_diff(NULL::json, '1'),
    json_patch_merge('{}'::jsonb, NULL), json_patch_merge_diff(NULL::jsonb, '1'), json_patch_merge_diff('1'::json, NULL), json_patch_value('{}'::jsonb, NULL), json_patch_check(NULL::jsonb), json_patch_is_valid(NULL::json);
SELECT json_patch_merge('{"a":1}'::jsonb, 'null'), json_patch_apply('1'::jsonb, '[{"op":"replace","path":"","value":null}]'), json_patch_diff('null'::jsonb, 'null');
-- of json every byte stays that nothing changes
SELECT json_patch_apply('{ "price": 1.50, "tags": ["new"],
  "a": "\u00e9" }'::json, '[{"op":"add","path":"/tags/-","value": 1e400}]');
SELECT json_patch_apply('{ "b": 1, "a": 2 }'::json, '[{"op":"remove","path":"/a"}]'::jsonb), json_patch_merge('{ "b": 1.0, "a": 2 }'::json, '{"a":null}');
-- numbers of any form, by their values
SELECT json_patch_apply('{"price": 1.50, "n": 1}'::jsonb, '[{"op":"test","path":"/price","value":1.5},{"op":"replace","path":"/n","value":2.500}]');
SELECT json_patch_diff('{"price": 1.50}'::jsonb, '{"price": 1.5}'), json_patch_diff('[18446744073709551616]'::json, '[18446744073709551617]');
SELECT json_patch_diff('{"price": 1.50, "large": 1e400, "was": [0.1, 7]}'::json, '{"large": 10e399, "price": 1.5, "was": [0.1, 2.50, 7]}');
-- the merge patch between two documents leads there
SELECT count(*) FROM rfc7396 WHERE json_patch_merge(document::jsonb, json_patch_merge_diff(document::jsonb, expected::jsonb)) = expected::jsonb
    AND json_patch_merge(document::json, json_patch_merge_diff(document::json, expected::json))::jsonb = expected::jsonb;
SELECT json_patch_merge_diff('{"price": 1.50, "old": 1, "a": {"b": null}}'::json, '{"a": {"c": 1e400, "b": null}, "price": 15e-1}'), json_patch_merge_diff('{"a": [1]}'::jsonb, '{"a": [1, null]}');
-- what an operation displaced comes back with the bytes that it had
SELECT document, inverse, json_patch_apply(document, inverse) FROM json_patch_record('{ "price": 1.50, "large": 1e400 }'::json, '[{"op":"replace","path":"/price","value":2.00},{"op":"remove","path":"/large"}]');
SELECT document, inverse, json_patch_apply(document, inverse), json_patch_inverse('{"price": 1.50}'::jsonb, '[]') FROM json_patch_record('{"price": 1.50, "t": [0.10, true]}'::jsonb, '[{"op":"replace","path":"/price","value":2},{"op":"remove","path":"/t"}]');
-- both at once; the shape of a patch; a list of patches
SELECT * FROM json_patch_record('{"a":[1,2],"s":"\",[{"}'::jsonb, '[{"op":"remove","path":"/a/0"},{"op":"add","path":"/b","value":5}]');
SELECT json_patch_check(patch), json_patch_is_valid(patch) FROM (VALUES ('[]'::jsonb), ('[{"op":"test","path":"","value":1.5}]'), ('{}'), ('[1]'), ('[{"op":"remove","path":"/a"},{"op":"remove","path":"a"}]')) v (patch);
CREATE TABLE steps (number int PRIMARY KEY, patch jsonb CHECK (json_patch_is_valid(patch)));
INSERT INTO steps VALUES (3, '[{"op":"add","path":"/l/-","value":0.10}]'), (1, '[{"op":"replace","path":"","value":{"n":1}}]'), (2, '[{"op":"add","path":"/l","value":[]}]');
INSERT INTO steps VALUES (4, '[{"op":"ad","path":"/l/-","value":2}]');
SELECT json_patch_replay(patch ORDER BY number), json_patch_replay(patch ORDER BY number) FILTER (WHERE number < 3), json_patch_replay(patch::json ORDER BY number) FILTER (WHERE number < 2), json_patch_replay(patch) FILTER (WHERE false) FROM steps;
-- an index, a generated column
CREATE TABLE documents (d jsonb, patch jsonb, e jsonb GENERATED ALWAYS AS (json_patch_apply(d, patch)) STORED);
CREATE INDEX ON documents ((json_patch_merge(d, '{"x":null}')));
INSERT INTO documents VALUES ('[1]', '[{"op":"add","path":"/-","value":2}]');
SELECT e FROM documents;
-- what the functions are
SELECT count(*), count(*) FILTER (WHERE provolatile = 'i' AND proisstrict AND proparallel = 's') FROM pg_proc WHERE probin LIKE '%json\_patch' AND proname <> 'json_patch_version';
SELECT json_patch_version() = extversion FROM pg_extension WHERE extname = 'json_patch';
DROP TABLE rfc6902, rfc7396, rfc6901, steps, documents;
