-- Documents with a history: each change leaves the patch that takes it back, and an undo is one UPDATE.
--
--     sqlite3 < sqlite/example.sql        in the unpacked folder, where json_patch.so was built
.load ./json_patch

CREATE TABLE documents (
    id INTEGER PRIMARY KEY,
    version INTEGER NOT NULL DEFAULT 0,
    document TEXT NOT NULL
);

-- What takes a document from this version to the one before.
CREATE TABLE undos (
    id INTEGER NOT NULL REFERENCES documents,
    version INTEGER NOT NULL,
    patch TEXT NOT NULL CHECK (json_patch_check(patch) IS NULL),
    PRIMARY KEY (id, version)
) WITHOUT ROWID;

CREATE TRIGGER remember AFTER UPDATE ON documents WHEN new.version > old.version BEGIN
    INSERT INTO undos VALUES (new.id, new.version, json_patch_diff(new.document, old.document));
END;

CREATE TRIGGER forget AFTER UPDATE ON documents WHEN new.version < old.version BEGIN
    DELETE FROM undos WHERE id = new.id AND version > new.version;
END;

INSERT INTO documents (id, document) VALUES (1, '{"price":12.50,"stock":5,"tags":["new"]}');

-- two changes; the second is made only while there are 5 in stock
UPDATE documents SET version = version + 1,
    document = json_patch_apply(document, '[{"op":"add","path":"/tags/-","value":"red"}]')
WHERE id = 1;
UPDATE documents SET version = version + 1,
    document = json_patch_apply(document, '[{"op":"test","path":"/stock","value":5},{"op":"replace","path":"/price","value":9.90}]')
WHERE id = 1;
SELECT version, document FROM documents;
SELECT version, patch FROM undos;

-- an undo
UPDATE documents SET version = version - 1,
    document = json_patch_apply(document, (SELECT patch FROM undos WHERE undos.id = documents.id AND undos.version = documents.version))
WHERE id = 1;
SELECT version, document FROM documents;
