-- The tables of `--journal postgresql://..`, for a role that may not make any: run this once by another one, in the
-- schema that is the first of the role's search_path. gateway_role stands for the role of the gateways.
-- CREATE ROLE gateway_role LOGIN;

CREATE TABLE odb_form (form integer NOT NULL);
INSERT INTO odb_form VALUES (1);
CREATE TABLE odb_gateway (holder bigint PRIMARY KEY, name text NOT NULL, until timestamptz NOT NULL);
CREATE TABLE odb_part (
    batch bytea NOT NULL, number integer NOT NULL, holder bigint NOT NULL, writer bigint NOT NULL,
    open boolean NOT NULL, at timestamptz NOT NULL, text bytea NOT NULL, PRIMARY KEY (batch, number)
);
CREATE INDEX odb_part_at ON odb_part (at) WHERE number = 0;
ALTER TABLE odb_part SET (autovacuum_vacuum_scale_factor = 0.02, autovacuum_vacuum_insert_scale_factor = 0.05);
ALTER TABLE odb_part ALTER COLUMN text SET STORAGE EXTERNAL;

GRANT SELECT ON odb_form TO gateway_role;
GRANT SELECT, INSERT, UPDATE, DELETE ON odb_gateway TO gateway_role;
GRANT SELECT, INSERT, DELETE ON odb_part TO gateway_role;
