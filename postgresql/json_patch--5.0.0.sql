/* JSON Patch for PostgreSQL: the functions, and a history of rows. What is written has the type of the
   document. docs/POSTGRESQL.md of the repository says more. */
\echo Use "CREATE EXTENSION json_patch" to load this file. \quit

-- JSON Patch, RFC 6902
CREATE FUNCTION json_patch_apply(document json, patch json) RETURNS json
    LANGUAGE c IMMUTABLE STRICT PARALLEL SAFE COST 500 AS 'MODULE_PATHNAME', 'pg_json_patch_apply';
COMMENT ON FUNCTION json_patch_apply(json, json) IS 'the document that the patch leaves (RFC 6902)';

CREATE FUNCTION json_patch_apply(document json, patch jsonb) RETURNS json
    LANGUAGE c IMMUTABLE STRICT PARALLEL SAFE COST 500 AS 'MODULE_PATHNAME', 'pg_json_patch_apply';
COMMENT ON FUNCTION json_patch_apply(json, jsonb) IS 'the document that the patch leaves (RFC 6902)';

CREATE FUNCTION json_patch_apply(document jsonb, patch json) RETURNS jsonb
    LANGUAGE c IMMUTABLE STRICT PARALLEL SAFE COST 500 AS 'MODULE_PATHNAME', 'pg_json_patch_apply';
COMMENT ON FUNCTION json_patch_apply(jsonb, json) IS 'the document that the patch leaves (RFC 6902)';

CREATE FUNCTION json_patch_apply(document jsonb, patch jsonb) RETURNS jsonb
    LANGUAGE c IMMUTABLE STRICT PARALLEL SAFE COST 500 AS 'MODULE_PATHNAME', 'pg_json_patch_apply';
COMMENT ON FUNCTION json_patch_apply(jsonb, jsonb) IS 'the document that the patch leaves (RFC 6902)';

CREATE FUNCTION json_patch_inverse(document json, patch json) RETURNS json
    LANGUAGE c IMMUTABLE STRICT PARALLEL SAFE COST 500 AS 'MODULE_PATHNAME', 'pg_json_patch_inverse';
COMMENT ON FUNCTION json_patch_inverse(json, json) IS 'the patch that takes this patch back';

CREATE FUNCTION json_patch_inverse(document json, patch jsonb) RETURNS json
    LANGUAGE c IMMUTABLE STRICT PARALLEL SAFE COST 500 AS 'MODULE_PATHNAME', 'pg_json_patch_inverse';
COMMENT ON FUNCTION json_patch_inverse(json, jsonb) IS 'the patch that takes this patch back';

CREATE FUNCTION json_patch_inverse(document jsonb, patch json) RETURNS jsonb
    LANGUAGE c IMMUTABLE STRICT PARALLEL SAFE COST 500 AS 'MODULE_PATHNAME', 'pg_json_patch_inverse';
COMMENT ON FUNCTION json_patch_inverse(jsonb, json) IS 'the patch that takes this patch back';

CREATE FUNCTION json_patch_inverse(document jsonb, patch jsonb) RETURNS jsonb
    LANGUAGE c IMMUTABLE STRICT PARALLEL SAFE COST 500 AS 'MODULE_PATHNAME', 'pg_json_patch_inverse';
COMMENT ON FUNCTION json_patch_inverse(jsonb, jsonb) IS 'the patch that takes this patch back';

CREATE FUNCTION json_patch_record(INOUT document json, patch json, OUT inverse json)
    LANGUAGE c IMMUTABLE STRICT PARALLEL SAFE COST 500 AS 'MODULE_PATHNAME', 'pg_json_patch_record';
COMMENT ON FUNCTION json_patch_record(json, json) IS 'the document that the patch leaves, and the patch that leads back';

CREATE FUNCTION json_patch_record(INOUT document json, patch jsonb, OUT inverse json)
    LANGUAGE c IMMUTABLE STRICT PARALLEL SAFE COST 500 AS 'MODULE_PATHNAME', 'pg_json_patch_record';
COMMENT ON FUNCTION json_patch_record(json, jsonb) IS 'the document that the patch leaves, and the patch that leads back';

CREATE FUNCTION json_patch_record(INOUT document jsonb, patch json, OUT inverse jsonb)
    LANGUAGE c IMMUTABLE STRICT PARALLEL SAFE COST 500 AS 'MODULE_PATHNAME', 'pg_json_patch_record';
COMMENT ON FUNCTION json_patch_record(jsonb, json) IS 'the document that the patch leaves, and the patch that leads back';

CREATE FUNCTION json_patch_record(INOUT document jsonb, patch jsonb, OUT inverse jsonb)
    LANGUAGE c IMMUTABLE STRICT PARALLEL SAFE COST 500 AS 'MODULE_PATHNAME', 'pg_json_patch_record';
COMMENT ON FUNCTION json_patch_record(jsonb, jsonb) IS 'the document that the patch leaves, and the patch that leads back';

CREATE FUNCTION json_patch_diff(document json, goal json) RETURNS json
    LANGUAGE c IMMUTABLE STRICT PARALLEL SAFE COST 500 AS 'MODULE_PATHNAME', 'pg_json_patch_diff';
COMMENT ON FUNCTION json_patch_diff(json, json) IS 'the patch that leads from the document to the goal, [] where they are equal';

CREATE FUNCTION json_patch_diff(document jsonb, goal jsonb) RETURNS jsonb
    LANGUAGE c IMMUTABLE STRICT PARALLEL SAFE COST 500 AS 'MODULE_PATHNAME', 'pg_json_patch_diff';
COMMENT ON FUNCTION json_patch_diff(jsonb, jsonb) IS 'the patch that leads from the document to the goal, [] where they are equal';

CREATE FUNCTION json_patch_check(patch json) RETURNS text
    LANGUAGE c IMMUTABLE STRICT PARALLEL SAFE COST 500 AS 'MODULE_PATHNAME', 'pg_json_patch_check';
COMMENT ON FUNCTION json_patch_check(json) IS 'NULL for a patch, and else what is wrong with it';

CREATE FUNCTION json_patch_check(patch jsonb) RETURNS text
    LANGUAGE c IMMUTABLE STRICT PARALLEL SAFE COST 500 AS 'MODULE_PATHNAME', 'pg_json_patch_check';
COMMENT ON FUNCTION json_patch_check(jsonb) IS 'NULL for a patch, and else what is wrong with it';

CREATE FUNCTION json_patch_is_valid(patch json) RETURNS boolean
    LANGUAGE c IMMUTABLE STRICT PARALLEL SAFE COST 500 AS 'MODULE_PATHNAME', 'pg_json_patch_is_valid';
COMMENT ON FUNCTION json_patch_is_valid(json) IS 'whether this is a patch';

CREATE FUNCTION json_patch_is_valid(patch jsonb) RETURNS boolean
    LANGUAGE c IMMUTABLE STRICT PARALLEL SAFE COST 500 AS 'MODULE_PATHNAME', 'pg_json_patch_is_valid';
COMMENT ON FUNCTION json_patch_is_valid(jsonb) IS 'whether this is a patch';

-- what patches make of null, one after another: json_patch_replay(patch ORDER BY number)
CREATE AGGREGATE json_patch_replay(json) (sfunc = json_patch_apply, stype = json, initcond = 'null', parallel = safe);
COMMENT ON AGGREGATE json_patch_replay(json) IS 'the document that the patches leave, one after another, of null';

CREATE AGGREGATE json_patch_replay(jsonb) (sfunc = json_patch_apply, stype = jsonb, initcond = 'null', parallel = safe);
COMMENT ON AGGREGATE json_patch_replay(jsonb) IS 'the document that the patches leave, one after another, of null';

-- JSON Merge Patch, RFC 7396, and JSON Pointer, RFC 6901
CREATE FUNCTION json_patch_merge(document json, patch json) RETURNS json
    LANGUAGE c IMMUTABLE STRICT PARALLEL SAFE COST 500 AS 'MODULE_PATHNAME', 'pg_json_patch_merge';
COMMENT ON FUNCTION json_patch_merge(json, json) IS 'the document with the merge patch merged into it (RFC 7396)';

CREATE FUNCTION json_patch_merge(document json, patch jsonb) RETURNS json
    LANGUAGE c IMMUTABLE STRICT PARALLEL SAFE COST 500 AS 'MODULE_PATHNAME', 'pg_json_patch_merge';
COMMENT ON FUNCTION json_patch_merge(json, jsonb) IS 'the document with the merge patch merged into it (RFC 7396)';

CREATE FUNCTION json_patch_merge(document jsonb, patch json) RETURNS jsonb
    LANGUAGE c IMMUTABLE STRICT PARALLEL SAFE COST 500 AS 'MODULE_PATHNAME', 'pg_json_patch_merge';
COMMENT ON FUNCTION json_patch_merge(jsonb, json) IS 'the document with the merge patch merged into it (RFC 7396)';

CREATE FUNCTION json_patch_merge(document jsonb, patch jsonb) RETURNS jsonb
    LANGUAGE c IMMUTABLE STRICT PARALLEL SAFE COST 500 AS 'MODULE_PATHNAME', 'pg_json_patch_merge';
COMMENT ON FUNCTION json_patch_merge(jsonb, jsonb) IS 'the document with the merge patch merged into it (RFC 7396)';

CREATE FUNCTION json_patch_merge_diff(document json, goal json) RETURNS json
    LANGUAGE c IMMUTABLE STRICT PARALLEL SAFE COST 500 AS 'MODULE_PATHNAME', 'pg_json_patch_merge_diff';
COMMENT ON FUNCTION json_patch_merge_diff(json, json) IS 'the merge patch that leads from the document to the goal';

CREATE FUNCTION json_patch_merge_diff(document jsonb, goal jsonb) RETURNS jsonb
    LANGUAGE c IMMUTABLE STRICT PARALLEL SAFE COST 500 AS 'MODULE_PATHNAME', 'pg_json_patch_merge_diff';
COMMENT ON FUNCTION json_patch_merge_diff(jsonb, jsonb) IS 'the merge patch that leads from the document to the goal';

CREATE FUNCTION json_patch_value(document json, pointer text) RETURNS json
    LANGUAGE c IMMUTABLE STRICT PARALLEL SAFE COST 500 AS 'MODULE_PATHNAME', 'pg_json_patch_value';
COMMENT ON FUNCTION json_patch_value(json, text) IS 'what stands where the pointer leads (RFC 6901), NULL where it leads nowhere';

CREATE FUNCTION json_patch_value(document jsonb, pointer text) RETURNS jsonb
    LANGUAGE c IMMUTABLE STRICT PARALLEL SAFE COST 500 AS 'MODULE_PATHNAME', 'pg_json_patch_value';
COMMENT ON FUNCTION json_patch_value(jsonb, text) IS 'what stands where the pointer leads (RFC 6901), NULL where it leads nowhere';

CREATE FUNCTION json_patch_version() RETURNS text
    LANGUAGE c STABLE STRICT PARALLEL SAFE AS 'MODULE_PATHNAME', 'pg_json_patch_version';
COMMENT ON FUNCTION json_patch_version() IS 'the version of the library';

/*
 * A history of the rows of a table. In it a row is what to_jsonb makes of it, and one that isn't there is
 * null: so an INSERT, an UPDATE and a DELETE are each a patch. What is called on the caller's behalf is
 * named with its schema, since the caller's search_path is anybody's.
 */

-- the columns of the primary key, in its order, NULL where there is none
CREATE FUNCTION json_patch_key(relation regclass) RETURNS text[]
    LANGUAGE sql STABLE STRICT
    AS $$
        SELECT pg_catalog.array_agg(a.attname::text ORDER BY pg_catalog.array_position(i.indkey::int2[], a.attnum))
        FROM pg_catalog.pg_index i JOIN pg_catalog.pg_attribute a ON a.attrelid = i.indrelid AND a.attnum = ANY ((i.indkey::int2[])[:i.indnkeyatts - 1])
        WHERE i.indrelid = relation AND i.indisprimary
    $$;

CREATE FUNCTION json_patch_history(relation regclass) RETURNS text
    LANGUAGE sql STABLE STRICT
    AS $$
        SELECT pg_catalog.format('%I.%I', n.nspname, c.relname || '_history')
        FROM pg_catalog.pg_class c JOIN pg_catalog.pg_namespace n ON n.oid = c.relnamespace WHERE c.oid = relation
    $$;

-- a row's members of these names
CREATE FUNCTION json_patch_part(of jsonb, names text[]) RETURNS jsonb
    LANGUAGE sql IMMUTABLE STRICT
    AS 'SELECT pg_catalog.jsonb_object_agg(name, of -> name) FROM pg_catalog.unnest(names) name';

/* The trigger. Its settings write a value in one way, whatever the session's are: keys are found again. */
CREATE FUNCTION json_patch_remember() RETURNS trigger
    LANGUAGE plpgsql
    SET timezone = 'UTC' SET datestyle = 'ISO' SET intervalstyle = 'iso_8601' SET bytea_output = 'hex' SET extra_float_digits = 1 SET json_patch.max_depth = 124
    AS $$
DECLARE
    into_history constant text := pg_catalog.format('INSERT INTO %s (key, deed, undo)', TG_ARGV[0]);
    names constant text[] := TG_ARGV[1];
    was jsonb := 'null';
    now jsonb := 'null';
    was_key jsonb;
    now_key jsonb;
BEGIN
    IF TG_OP = 'TRUNCATE' THEN
        EXECUTE pg_catalog.format(
            '%1$s SELECT %2$s.json_patch_part(was, $1), $2, %2$s.json_patch_diff(''null'', was)
             FROM (SELECT pg_catalog.to_jsonb(t.*) AS was FROM %3$I.%4$I t) all_rows', into_history, '@extschema@', TG_TABLE_SCHEMA, TG_TABLE_NAME) USING names, TG_OP;
        RETURN NULL;
    END IF;
    IF TG_OP <> 'INSERT' THEN
        was := pg_catalog.to_jsonb(OLD);
        was_key := @extschema@.json_patch_part(was, names);
    END IF;
    IF TG_OP <> 'DELETE' THEN
        now := pg_catalog.to_jsonb(NEW);
        now_key := @extschema@.json_patch_part(now, names);
    END IF;
    IF was_key <> now_key THEN
        EXECUTE into_history || ' VALUES ($1, ''DELETE'', $2), ($3, ''INSERT'', $4)'
            USING was_key, @extschema@.json_patch_diff('null', was), now_key, @extschema@.json_patch_diff(now, 'null');
    ELSE
        EXECUTE into_history || ' VALUES ($1, $2, $3)' USING coalesce(now_key, was_key), TG_OP, @extschema@.json_patch_diff(now, was);
    END IF;
    RETURN NULL;
END$$;

CREATE FUNCTION json_patch_keep_history(relation regclass) RETURNS regclass
    LANGUAGE plpgsql STRICT
    SET client_min_messages = warning
    AS $$
DECLARE
    names constant text[] := @extschema@.json_patch_key(relation);
    history constant text := @extschema@.json_patch_history(relation);
BEGIN
    IF names IS NULL THEN
        RAISE EXCEPTION 'table % has no primary key', relation USING ERRCODE = 'JP030', HINT = 'A history tells rows apart by their primary key.';
    END IF;
    IF pg_catalog.to_regclass(history) IS NULL THEN
        EXECUTE pg_catalog.format('CREATE TABLE %s (
            version bigint GENERATED ALWAYS AS IDENTITY PRIMARY KEY,
            key jsonb NOT NULL,
            deed text NOT NULL,
            undo jsonb NOT NULL,
            made_at timestamptz NOT NULL DEFAULT pg_catalog.clock_timestamp(),
            made_by name NOT NULL DEFAULT session_user,
            transaction xid8 NOT NULL DEFAULT pg_catalog.pg_current_xact_id())', history);
        EXECUTE pg_catalog.format('CREATE INDEX ON %s (key, version)', history);
    ELSIF 4 > (SELECT pg_catalog.count(*) FROM pg_catalog.pg_attribute WHERE attrelid = pg_catalog.to_regclass(history) AND attname IN ('version', 'key', 'deed', 'undo')) THEN
        RAISE EXCEPTION 'table % is there, and is no history', pg_catalog.to_regclass(history) USING ERRCODE = 'duplicate_table', HINT = 'A history is named after its table, and a name ends behind 63 bytes.';
    END IF;
    -- by their names they come before other triggers, which may change the row again
    EXECUTE pg_catalog.format('DROP TRIGGER IF EXISTS "!json_patch_remember" ON %s', relation);
    EXECUTE pg_catalog.format('DROP TRIGGER IF EXISTS "!json_patch_remember_all" ON %s', relation);
    EXECUTE pg_catalog.format('CREATE TRIGGER "!json_patch_remember" AFTER INSERT OR UPDATE OR DELETE ON %s
        FOR EACH ROW EXECUTE FUNCTION %s.json_patch_remember(%L, %L)', relation, '@extschema@', history, names);
    EXECUTE pg_catalog.format('CREATE TRIGGER "!json_patch_remember_all" BEFORE TRUNCATE ON %s
        FOR EACH STATEMENT EXECUTE FUNCTION %s.json_patch_remember(%L, %L)', relation, '@extschema@', history, names);
    RETURN history::regclass;
END$$;
COMMENT ON FUNCTION json_patch_keep_history(regclass) IS 'has each change of a row leave what takes it back in a table NAME_history, whose name is given';

-- the key as the history has it; $1, which that is, as a row k of a FROM; where a row t has this key
CREATE FUNCTION json_patch_found(relation regclass, INOUT key jsonb, OUT keys text, OUT same text)
    LANGUAGE plpgsql STABLE STRICT
    SET timezone = 'UTC' SET datestyle = 'ISO' SET intervalstyle = 'iso_8601' SET bytea_output = 'hex' SET extra_float_digits = 1
    AS $$
DECLARE
    names constant text[] := @extschema@.json_patch_key(relation);
BEGIN
    IF names IS NULL OR pg_catalog.to_regclass(@extschema@.json_patch_history(relation)) IS NULL THEN
        RAISE EXCEPTION 'table % keeps no history', relation USING ERRCODE = 'JP031', HINT = 'json_patch_keep_history begins one.';
    END IF;
    IF NOT key ?& names THEN
        RAISE EXCEPTION 'key % lacks a column', key USING ERRCODE = 'JP032', HINT = pg_catalog.format('The primary key has %s.', names);
    END IF;
    SELECT pg_catalog.format('pg_catalog.jsonb_to_record($1) AS k (%s)', pg_catalog.string_agg(pg_catalog.format('%I %s', attname, pg_catalog.format_type(atttypid, atttypmod)), ', ')),
           pg_catalog.string_agg(pg_catalog.format('t.%1$I = k.%1$I', attname), ' AND ')
        INTO keys, same FROM pg_catalog.pg_attribute WHERE attrelid = relation AND attname = ANY (names);
    EXECUTE 'SELECT pg_catalog.to_jsonb(k.*) FROM ' || keys INTO key USING key;
END$$;

CREATE FUNCTION json_patch_row_at(relation regclass, key jsonb, version bigint) RETURNS jsonb
    LANGUAGE plpgsql STABLE STRICT
    SET timezone = 'UTC' SET datestyle = 'ISO' SET intervalstyle = 'iso_8601' SET bytea_output = 'hex' SET extra_float_digits = 1 SET json_patch.max_depth = 124
    AS $$
DECLARE
    found constant record := @extschema@.json_patch_found(relation, key);
    state jsonb;
    step jsonb;
BEGIN
    EXECUTE pg_catalog.format('SELECT pg_catalog.to_jsonb(t.*) FROM %s JOIN %s t ON %s', found.keys, relation, found.same) INTO state USING found.key;
    state := coalesce(state, 'null');
    FOR step IN EXECUTE pg_catalog.format('SELECT undo FROM %s h WHERE h.key = $1 AND h.version > $2 ORDER BY h.version DESC', @extschema@.json_patch_history(relation))
            USING found.key, version LOOP
        state := @extschema@.json_patch_apply(state, step);
    END LOOP;
    RETURN nullif(state, 'null');
END$$;
COMMENT ON FUNCTION json_patch_row_at(regclass, jsonb, bigint) IS 'the row of this key as it was after that version of the history, NULL where there was none';

-- what an undo may write: the columns but generated ones, and for an UPDATE also but the key and identities; and what of a
-- row goes there, where a null that can't be SQL's is JSON's
CREATE FUNCTION json_patch_columns(relation regclass, OUT all_written text, OUT all_values text, OUT changed text, OUT changed_values text)
    LANGUAGE sql STABLE STRICT
    AS $$
        SELECT pg_catalog.string_agg(name, ', '), pg_catalog.string_agg(value, ', '),
               pg_catalog.string_agg(name, ', ') FILTER (WHERE may_change), pg_catalog.string_agg(value, ', ') FILTER (WHERE may_change)
        FROM (SELECT pg_catalog.quote_ident(attname) AS name,
                     CASE WHEN attnotnull AND atttypid IN ('pg_catalog.json'::regtype, 'pg_catalog.jsonb'::regtype) THEN pg_catalog.format('coalesce(%I, ''null'')', attname) ELSE pg_catalog.quote_ident(attname) END AS value,
                     attidentity <> 'a' AND attname <> ALL (@extschema@.json_patch_key(relation)) AS may_change
              FROM pg_catalog.pg_attribute WHERE attrelid = relation AND attnum > 0 AND NOT attisdropped AND attgenerated = '') a
    $$;

CREATE FUNCTION json_patch_undo(relation regclass, key jsonb, version bigint) RETURNS jsonb
    LANGUAGE plpgsql STRICT
    AS $$
DECLARE
    found constant record := @extschema@.json_patch_found(relation, key);
    columns constant record := @extschema@.json_patch_columns(relation);
    is_there boolean;
    state jsonb;
BEGIN
    -- from here on nobody else changes the row
    EXECUTE pg_catalog.format('SELECT true FROM %s JOIN %s t ON %s FOR UPDATE OF t', found.keys, relation, found.same) INTO is_there USING found.key;
    state := @extschema@.json_patch_row_at(relation, found.key, version);
    IF state IS NULL THEN
        EXECUTE pg_catalog.format('DELETE FROM %s t USING %s WHERE %s', relation, found.keys, found.same) USING found.key;
    ELSIF is_there IS NULL THEN
        EXECUTE pg_catalog.format('INSERT INTO %1$s (%2$s) OVERRIDING SYSTEM VALUE SELECT %3$s FROM pg_catalog.jsonb_populate_record(NULL::%1$s, $1)', relation, columns.all_written, columns.all_values) USING state;
    ELSIF columns.changed IS NOT NULL THEN
        EXECUTE pg_catalog.format('UPDATE %1$s t SET (%2$s) = (SELECT %3$s FROM pg_catalog.jsonb_populate_record(NULL::%1$s, $2)) FROM %4$s WHERE %5$s', relation, columns.changed, columns.changed_values, found.keys, found.same) USING found.key, state;
    END IF;
    RETURN state;
END$$;
COMMENT ON FUNCTION json_patch_undo(regclass, jsonb, bigint) IS 'makes the row of this key what it was after that version of the history, which is a change of its own';
