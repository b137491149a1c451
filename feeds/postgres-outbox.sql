-- The outbox that feeds/postgres-outbox reads, in the schema that it is run in: a stream has a schema of its own.

-- Images, in the order of the transactions that wrote them. The database fills id and xid.
CREATE TABLE outbox (
    id bigserial,
    xid xid8 NOT NULL DEFAULT pg_current_xact_id(),
    image text NOT NULL,
    PRIMARY KEY (xid, id)
);

-- The head: the first row. It names this outbox, and says up to which position rows were deleted, and which row had this position.
INSERT INTO outbox (id, xid, image) VALUES
    (0, '0', json_build_object('id', 0, 'outbox', gen_random_uuid(), 'position', 0, 'xid', '0')::text);

-- Rows stay, until outbox_forget deletes them.
CREATE FUNCTION outbox_keeps_rows() RETURNS trigger LANGUAGE plpgsql AS $$
BEGIN
    IF current_setting('outbox.forgets', true) IS DISTINCT FROM 'yes' THEN
        RAISE EXCEPTION 'the outbox keeps its rows: outbox_forget deletes those that all regions have';
    END IF;
    RETURN NULL;
END $$;

CREATE TRIGGER outbox_keeps_rows BEFORE UPDATE OR DELETE OR TRUNCATE ON outbox
    FOR EACH STATEMENT EXECUTE FUNCTION outbox_keeps_rows();

-- Deletes what all regions have: give it the position that each of them has taken, of every region there is. Answers up to
-- which position rows are deleted now. A region that has less, or starts from its first message, has to start from copies then.
CREATE FUNCTION outbox_forget(VARIADIC taken bigint[]) RETURNS bigint LANGUAGE plpgsql SET search_path FROM CURRENT AS $$
DECLARE
    head json;
    up_to bigint;
    gone bigint;
    ends outbox;
BEGIN
    IF array_position(taken, NULL) IS NOT NULL OR cardinality(taken) = 0 THEN
        RAISE EXCEPTION 'outbox_forget needs the position of every region';
    END IF;
    SELECT min(one) INTO up_to FROM unnest(taken) AS one;
    SELECT image::json INTO head FROM outbox WHERE (xid, id) = ('0'::xid8, 0) FOR UPDATE;
    gone := head ->> 'position';
    IF up_to <= gone THEN
        RETURN gone;
    END IF;
    SELECT * INTO ends FROM outbox
        WHERE (xid, id) > ((head ->> 'xid')::xid8, (head ->> 'id')::bigint) AND xid < pg_snapshot_xmin(pg_current_snapshot())
        ORDER BY xid, id OFFSET up_to - gone - 1 LIMIT 1;
    IF NOT FOUND THEN
        RAISE EXCEPTION 'the outbox has no position %', up_to;
    END IF;
    PERFORM set_config('outbox.forgets', 'yes', true);
    DELETE FROM outbox WHERE (xid, id) > ('0'::xid8, 0) AND (xid, id) <= (ends.xid, ends.id);
    UPDATE outbox SET image = json_build_object(
        'id', ends.id, 'outbox', head ->> 'outbox', 'position', up_to, 'xid', ends.xid::text)::text WHERE (xid, id) = ('0'::xid8, 0);
    PERFORM set_config('outbox.forgets', 'no', true);
    RETURN up_to;
END $$;
