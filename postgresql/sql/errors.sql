-- each kind of refusal, with its SQLSTATE
\pset format unaligned
\pset tuples_only on
CREATE FUNCTION told(call text) RETURNS SETOF text LANGUAGE plpgsql AS $$
DECLARE
    detail text;
    hint text;
BEGIN
    EXECUTE call;
    RETURN NEXT 'taken';
EXCEPTION WHEN OTHERS THEN
    GET STACKED DIAGNOSTICS detail = PG_EXCEPTION_DETAIL, hint = PG_EXCEPTION_HINT;
    RETURN NEXT SQLSTATE || ' ' || SQLERRM;
    RETURN NEXT detail;
    RETURN NEXT hint;
END$$;
SELECT told($$SELECT json_patch_apply('{"a":1}'::jsonb, '[{"op":"test","path":"/a","value":2}]')$$);
SELECT told($$SELECT json_patch_apply('{"c":{}}'::json, '[{"op":"add","path":"/a","value":1},{"op":"remove","path":"/c/d"}]')$$);
SELECT told($$SELECT json_patch_apply('{}'::jsonb, '[{"op":"copy","from":"/b","path":"/a"}]')$$);
SELECT told($$SELECT json_patch_apply('{"a":{}}'::jsonb, '[{"op":"move","from":"/a","path":"/a/b"}]')$$);
SELECT told($$SELECT json_patch_inverse('{}'::json, '[{"op":"test","path":"","value":{}},{"op":"remove","path":"/\u00e9\"\\\u0000\n\u007f\u0085"}]')$$);
-- what is no document, patch or pointer
SELECT told($$SELECT json_patch_apply('"\ud800"'::json, '[]')$$);
SELECT told($$SELECT json_patch_diff('1'::json, '"\ud800"')$$);
SELECT told($$SELECT json_patch_merge_diff('1'::json, '"\ud800"')$$);
SELECT told($$SELECT json_patch_merge('1'::json, '"\ud800"')$$);
SELECT told($$SELECT json_patch_inverse('1'::json, '[{"op":"add","path":"","value":"\ud800"}]')$$);
SELECT told($$SELECT json_patch_apply('{}'::jsonb, '{}')$$);
SELECT told($$SELECT json_patch_apply('{}'::jsonb, '[{"op":"test","path":"","value":{}},{"op":"add","path":"/a"}]')$$);
SELECT told($$SELECT json_patch_value('{}'::jsonb, 'a')$$);
-- where no merge patch leads
SELECT told($$SELECT json_patch_merge_diff('{"a":1}'::jsonb, '{"a":{"b":null}}')$$);
-- limits
SET json_patch.max_depth = 1;
SELECT told($$SELECT json_patch_apply('[]'::jsonb, '[{"op":"copy","from":"","path":"/0"}]')$$);
SELECT told($$SELECT json_patch_apply('[[]]'::jsonb, '[]')$$);
SELECT told($$SELECT json_patch_merge('[]'::jsonb, '[[]]')$$);
SELECT told($$SELECT json_patch_diff('[]'::jsonb, '[[]]')$$);
SELECT told($$SELECT json_patch_merge_diff('[]'::jsonb, '[[]]')$$);
SELECT told($$SELECT json_patch_value('[[]]'::jsonb, '/0')$$);
SELECT told($$SELECT json_patch_inverse('[]'::jsonb, '[{"op":"copy","from":"","path":"/0"}]')$$);
RESET json_patch.max_depth;
SELECT told($$SELECT json_patch_apply((repeat('[', 125) || repeat(']', 125))::jsonb, '[]')$$);
-- the text has 104 bytes, the patch 39, and the copy leaves 104 + 103 = 207
SET json_patch.max_bytes = '64B';
SELECT told($$SELECT json_patch_apply(('["' || repeat('x', 100) || '"]')::json, '[{"op":"copy","from":"/0","path":"/0"}]')$$);
SET json_patch.max_bytes = '63B';
SELECT told($$SELECT json_patch_apply(('["' || repeat('x', 100) || '"]')::json, '[{"op":"copy","from":"/0","path":"/0"}]')$$);
-- 9 bytes and 7 are merged to 17
SET json_patch.max_bytes = 1;
SELECT told($$SELECT json_patch_merge('{ "a": 1}'::json, '{"b":2}')$$);
SET json_patch.max_bytes = 0;
SELECT told($$SELECT json_patch_merge('{ "a": 1}'::json, '{"b":2}')$$);
-- the text has 108 bytes, the patch 77, and the inverse, in which the string stands twice, 329
SET json_patch.max_bytes = 144;
SELECT told($$SELECT json_patch_inverse(('{"a":"' || repeat('x', 100) || '"}')::json, '[{"op":"move","from":"/a","path":"/b"},{"op":"move","from":"/b","path":"/a"}]')$$);
SET json_patch.max_bytes = 143;
SELECT told($$SELECT json_patch_inverse(('{"a":"' || repeat('x', 100) || '"}')::json, '[{"op":"move","from":"/a","path":"/b"},{"op":"move","from":"/b","path":"/a"}]')$$);
RESET json_patch.max_bytes;
SHOW json_patch.max_bytes;
-- one operation more than there may be: none is made, whatever the first comes to
SET json_patch.max_operations = 1;
SELECT told($$SELECT json_patch_apply('[]'::jsonb, '[{"op":"add","path":"/0","value":1}]')$$);
SELECT told($$SELECT json_patch_inverse('[]'::json, '[{"op":"remove","path":"/0"},{"op":"remove","path":"/0"}]')$$);
SET json_patch.max_operations = 2;
SELECT told($$SELECT json_patch_inverse('[]'::json, '[{"op":"remove","path":"/0"},{"op":"remove","path":"/0"}]')$$);
RESET json_patch.max_operations;
SHOW json_patch.max_operations;
SET json_patch.max_depth = 125;
-- copies into themselves, doubled again and again: the depth is reached at 64, and 2 ^ 7 is more than 124
SELECT told($$SELECT json_patch_apply('{"a":0}'::jsonb, (SELECT jsonb_agg(jsonb_build_object('op', 'copy', 'from', '', 'path', repeat('/a', (2 ^ n)::int)) ORDER BY n) FROM generate_series(0, 11) n))$$);
-- what json can hold, and jsonb not
SELECT told($$SELECT json_patch_apply('{}'::json, '[{"op":"add","path":"/a","value":"\u0000"}]')$$);
SELECT told($$SELECT json_patch_apply('{}'::jsonb, '[{"op":"add","path":"/a","value":"\u0000"}]'::json)$$);
-- a refused row: no row is changed
CREATE TABLE documents AS SELECT CASE number WHEN 5000 THEN '{"m":1}' ELSE '{"n":1}' END::jsonb AS d FROM generate_series(1, 10000) number;
UPDATE documents SET d = json_patch_apply(d, '[{"op":"replace","path":"/n","value":2}]');
SELECT d, count(*) FROM documents GROUP BY d ORDER BY d;
DROP TABLE documents;
DROP FUNCTION told;
