-- Documents on two other servers, each with a history, that are patched where they are. All three servers
-- have the extension's files; the databases are made here.
--
--     psql -v host=HOST -v two=PORT -v three=PORT -f postgresql/sharded.sql
\set VERBOSITY terse
\pset format unaligned
\pset tuples_only on
\set here :DBNAME
\set port :PORT

-- each of the others
\connect postgres postgres :host :two
CREATE DATABASE documents;
\connect documents
CREATE EXTENSION json_patch;
CREATE TABLE documents (id int PRIMARY KEY, document jsonb NOT NULL);
SELECT json_patch_keep_history('documents');
\connect postgres postgres :host :three
CREATE DATABASE documents;
\connect documents
CREATE EXTENSION json_patch;
CREATE TABLE documents (id int PRIMARY KEY, document jsonb NOT NULL);
SELECT json_patch_keep_history('documents');

-- this one, by which programs reach both; with extensions 'json_patch' its functions run there
\connect :here postgres :host :port
CREATE EXTENSION json_patch;
CREATE EXTENSION postgres_fdw;
CREATE SERVER two FOREIGN DATA WRAPPER postgres_fdw
    OPTIONS (host :'host', port :'two', dbname 'documents', extensions 'json_patch', options '-c json_patch.max_depth=20');
CREATE SERVER three FOREIGN DATA WRAPPER postgres_fdw
    OPTIONS (host :'host', port :'three', dbname 'documents', extensions 'json_patch', options '-c json_patch.max_depth=20');
CREATE USER MAPPING FOR CURRENT_USER SERVER two OPTIONS (user 'postgres');
CREATE USER MAPPING FOR CURRENT_USER SERVER three OPTIONS (user 'postgres');
CREATE TABLE documents (id int NOT NULL, document jsonb NOT NULL) PARTITION BY RANGE (id);
CREATE FOREIGN TABLE documents_two PARTITION OF documents FOR VALUES FROM (MINVALUE) TO (501) SERVER two OPTIONS (table_name 'documents');
CREATE FOREIGN TABLE documents_three PARTITION OF documents FOR VALUES FROM (501) TO (MAXVALUE) SERVER three OPTIONS (table_name 'documents');
INSERT INTO documents SELECT number, jsonb_build_object('n', number, 'price', 1.50) FROM generate_series(1, 1000) number;

-- each server patches its own: one statement goes to each, and no document comes here
EXPLAIN (VERBOSE, COSTS OFF) UPDATE documents SET document = json_patch_apply(document, '[{"op":"replace","path":"/n","value":0}]');
UPDATE documents SET document = json_patch_apply(document, '[{"op":"replace","path":"/n","value":0}]');
EXPLAIN (VERBOSE, COSTS OFF) SELECT id FROM documents WHERE json_patch_merge(document, '{"price":null}') = '{"n":0}';
SELECT tableoid::regclass, document, count(*) FROM documents GROUP BY 1, 2 ORDER BY 1;

-- a refusal there is an error here, with its SQLSTATE, and undoes the whole statement on both
\set VERBOSITY default
UPDATE documents SET document = json_patch_apply(document, '[{"op":"replace","path":"/n","value":1}]') WHERE id = 507;
UPDATE documents SET document = json_patch_apply(document, '[{"op":"test","path":"/n","value":0},{"op":"remove","path":"/price"}]');
\echo :LAST_ERROR_SQLSTATE
\set VERBOSITY terse
SELECT document, count(*) FROM documents GROUP BY 1 ORDER BY 1;
-- so is what is over the limits that the servers' options set
UPDATE documents SET document = json_patch_apply(document, (SELECT jsonb_agg(jsonb_build_object('op', 'add', 'path', repeat('/a', n), 'value', '{}'::jsonb) ORDER BY n) FROM generate_series(1, 20) n)) WHERE id = 7;

-- without the option each document comes here and goes back
ALTER SERVER three OPTIONS (DROP extensions);
EXPLAIN (VERBOSE, COSTS OFF) UPDATE documents SET document = json_patch_apply(document, '[]') WHERE id > 900;
