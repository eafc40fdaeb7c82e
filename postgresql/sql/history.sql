-- Documents with a history: each change of a row leaves what takes it back, and an undo is one call.
\pset format unaligned
\pset tuples_only on
CREATE TABLE documents (id int PRIMARY KEY, document jsonb, price numeric);
SELECT json_patch_keep_history('documents');
INSERT INTO documents VALUES (1, '{"stock":5,"tags":["new"]}', 1.50);
UPDATE documents SET document = json_patch_apply(document, '[{"op":"add","path":"/tags/-","value":"red"}]');
-- only while there are 5 in stock
UPDATE documents SET document = json_patch_apply(document, '[{"op":"test","path":"/stock","value":5},{"op":"replace","path":"/stock","value":4}]'), price = 2.75;
DELETE FROM documents;
SELECT version, deed, undo FROM documents_history ORDER BY version;
-- the row as it was, and made so again
SELECT json_patch_row_at('documents', '{"id":1}', 1);
SELECT json_patch_undo('documents', '{"id":1}', 2);
SELECT * FROM documents;
-- an undo is a change, too, and can be undone
SELECT version, deed FROM documents_history WHERE version > 4;
SELECT json_patch_undo('documents', '{"id":1}', 4) IS NULL;
SELECT count(*) FROM documents;
