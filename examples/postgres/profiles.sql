-- A table of profiles that is the master of a region's records: each change of a row becomes an image in the outbox of its stream.
-- Run it by psql, which finds the files of feeds/ from this one.

CREATE SCHEMA profiles_stream;
SET search_path = profiles_stream;
\ir ../../feeds/postgres-outbox.sql
\ir ../../feeds/postgres-table.sql
SET search_path = public;

CREATE TABLE profiles (
    id text PRIMARY KEY,
    name text NOT NULL,
    city text,
    about text,
    age integer
);

CALL profiles_stream.publish_table('profiles', 'id');
