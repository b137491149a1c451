-- Publishes tables: each change of a row writes the row's full image into the outbox of postgres-outbox.sql, in one transaction with it.
-- A stream has a schema of its own, which both files are run in:
--   CREATE SCHEMA east; SET search_path = east;
--   CALL east.publish_table('public.profiles', 'id');

-- The last version of each record that there ever was. A row that is inserted after a deletion begins the next generation.
CREATE TABLE versions (
    key text PRIMARY KEY,
    generation bigint NOT NULL,
    number bigint NOT NULL,
    live boolean NOT NULL
);

-- The next version of a record, in the transaction that changes it. Others who change the same record wait for its end.
CREATE FUNCTION next_version(record_key text, is_live boolean) RETURNS versions LANGUAGE sql SET search_path FROM CURRENT AS $$
    INSERT INTO versions AS old VALUES (record_key, 1, 0, is_live)
    ON CONFLICT (key) DO UPDATE SET
        generation = old.generation + (NOT old.live)::int,
        number = CASE WHEN old.live THEN old.number + 1 ELSE 0 END,
        live = is_live
    RETURNING *
$$;

-- Why a region would not take an image, which would end the stream; or null.
CREATE FUNCTION refusal_of(record_key text, record_master text, fields jsonb) RETURNS text LANGUAGE sql IMMUTABLE AS $$
    SELECT CASE
        WHEN coalesce(octet_length(record_key), 0) NOT BETWEEN 1 AND 256 THEN 'its key has no 1 to 256 bytes'
        WHEN coalesce(record_master, '') !~ '^[a-z0-9-]{1,32}$' THEN 'its master is no name of 1 to 32 bytes'
        WHEN count(*) > 64 THEN 'it has more than 64 fields'
        WHEN min(octet_length(name)) < 1 OR max(octet_length(name)) > 64 THEN 'a field''s name has no 1 to 64 bytes'
        WHEN bool_or(kind NOT IN ('string', 'number')) THEN 'a field is no text and no number'
        WHEN bool_or(kind = 'number' AND (told ~ '[^0-9-]' OR told::numeric NOT BETWEEN -2 ^ 63::numeric AND 2 ^ 63::numeric - 1))
            THEN 'a number is not whole, or has more than 64 bits'
        WHEN max(size) > 4096 THEN 'a text has more than 4,096 bytes'
        WHEN sum(octet_length(name) + size) > 8192 THEN 'its fields have more than 8,192 bytes'
    END FROM (
        SELECT key AS name, value #>> '{}' AS told, jsonb_typeof(value) AS kind,
            CASE jsonb_typeof(value) WHEN 'number' THEN 20 ELSE octet_length(value #>> '{}') END AS size
        FROM jsonb_each(coalesce(fields, '{}'))
    ) AS one
$$;

-- Writes the image of a record that has these fields now, or that was deleted, where they are null. Answers its version. Where a region
-- would not take the image the transaction fails.
CREATE FUNCTION tell(record_key text, record_master text, fields jsonb) RETURNS versions LANGUAGE plpgsql SET search_path FROM CURRENT AS $$
DECLARE
    why text := refusal_of(record_key, record_master, fields);
    version versions;
BEGIN
    IF why IS NOT NULL THEN
        RAISE EXCEPTION 'a region takes no such record as %: %', record_key, why USING ERRCODE = 'check_violation';
    END IF;
    version := next_version(record_key, fields IS NOT NULL);
    INSERT INTO outbox (image) VALUES (
        CASE WHEN fields IS NULL THEN '{"deleted":true}' ELSE jsonb_build_object('fields', fields) END
        || jsonb_build_object('key', record_key, 'master', record_master, 'version', jsonb_build_array(version.generation, version.number)));
    RETURN version;
END $$;

-- Writes the image of a row that was changed. Columns of smallint, integer and bigint are numbers, all others texts; null is no field.
CREATE FUNCTION tell_row() RETURNS trigger LANGUAGE plpgsql SET search_path FROM CURRENT AS $$
DECLARE
    told jsonb := CASE WHEN TG_OP = 'DELETE' THEN to_jsonb(OLD) ELSE to_jsonb(NEW) END;
    key_column text := TG_ARGV[0];
    fields jsonb;
BEGIN
    IF TG_OP = 'UPDATE' AND to_jsonb(OLD) -> key_column IS DISTINCT FROM told -> key_column THEN
        RAISE EXCEPTION 'a row of % keeps its %', TG_RELID::regclass, key_column;
    END IF;
    IF TG_OP <> 'DELETE' THEN
        SELECT coalesce(jsonb_object_agg(one.key, CASE WHEN atttypid IN ('int2'::regtype, 'int4'::regtype, 'int8'::regtype)
            THEN one.value ELSE to_jsonb(one.value #>> '{}') END), '{}')
        INTO fields FROM jsonb_each(told) AS one JOIN pg_attribute ON attrelid = TG_RELID AND attname = one.key
        WHERE one.key <> key_column AND jsonb_typeof(one.value) <> 'null';
    END IF;
    PERFORM tell(TG_ARGV[1] || (told ->> key_column), TG_ARGV[2], fields);
    RETURN NULL;
END $$;

CREATE FUNCTION refuse_truncation() RETURNS trigger LANGUAGE plpgsql AS $$
BEGIN
    RAISE EXCEPTION 'delete the rows of %: a truncation has no image', TG_RELID::regclass;
END $$;

-- Has each change of a table told from now on. The record of a row has the prefix and the row's column of this name as its key. Tables
-- whose keys meet in a region have different prefixes. Rows that are there already are told by UPDATE .. SET id = id.
CREATE PROCEDURE publish_table(told regclass, key_column name, prefix text DEFAULT '', master text DEFAULT 'postgres')
LANGUAGE plpgsql SET search_path FROM CURRENT AS $$
DECLARE
    stream name := current_schema;
BEGIN
    IF NOT EXISTS (
        SELECT FROM pg_attribute JOIN pg_index ON indrelid = attrelid AND indkey[0] = attnum
        WHERE attrelid = told AND attname = key_column AND attnotnull AND indisunique AND indnkeyatts = 1 AND indpred IS NULL
    ) THEN
        RAISE EXCEPTION '% has no column % that is unique and not null', told, key_column;
    END IF;
    EXECUTE format('CREATE TRIGGER %I AFTER INSERT OR UPDATE OR DELETE ON %s FOR EACH ROW EXECUTE FUNCTION %I.tell_row(%L, %L, %L)',
        stream || '_tell_row', told, stream, key_column, prefix, master);
    EXECUTE format('CREATE TRIGGER %I BEFORE TRUNCATE ON %s FOR EACH STATEMENT EXECUTE FUNCTION %I.refuse_truncation()',
        stream || '_refuse_truncation', told, stream);
END $$;
