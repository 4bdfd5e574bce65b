-- Writes lei.csv, rr.csv and repex.csv into the current folder: the golden copies of the publication that the database
-- has, byte for byte. The schema is that of examples/into_postgres.
--
--   psql -X DATABASE -f export_from_postgres.sql

\set ON_ERROR_STOP on
\set QUIET on
\encoding UTF8
BEGIN ISOLATION LEVEL REPEATABLE READ;
CREATE FUNCTION pg_temp.printed(moment timestamptz) RETURNS text LANGUAGE sql AS
    $$ SELECT coalesce(to_char(moment AT TIME ZONE 'UTC', 'YYYY-MM-DD"T"HH24:MI:SS"Z"'), '') $$;

\o lei.csv
\qecho -n '"LEI","Entity.LegalName","Entity.LegalName.xmllang","Entity.LegalAddress.FirstAddressLine",'
\qecho -n '"Entity.LegalAddress.City","Entity.LegalAddress.Region","Entity.LegalAddress.Country",'
\qecho -n '"Entity.LegalAddress.PostalCode","Entity.HeadquartersAddress.FirstAddressLine",'
\qecho -n '"Entity.HeadquartersAddress.City","Entity.HeadquartersAddress.Region",'
\qecho -n '"Entity.HeadquartersAddress.Country","Entity.HeadquartersAddress.PostalCode",'
\qecho -n '"Entity.RegistrationAuthority.RegistrationAuthorityID",'
\qecho -n '"Entity.RegistrationAuthority.RegistrationAuthorityEntityID","Entity.LegalJurisdiction",'
\qecho -n '"Entity.EntityCategory","Entity.LegalForm.EntityLegalFormCode","Entity.EntityStatus",'
\qecho -n '"Entity.EntityCreationDate","Entity.SuccessorEntity.1.SuccessorLEI",'
\qecho -n '"Registration.InitialRegistrationDate","Registration.LastUpdateDate",'
\qecho -n '"Registration.RegistrationStatus","Registration.NextRenewalDate","Registration.ManagingLOU",'
\qecho -n '"Registration.ValidationSources","Register.TransferTo","Entity.Event.1.Type",'
\qecho '"Entity.Event.1.EffectiveDate","Entity.Event.1.RecordedDate","Entity.Event.1.Status"'
COPY (
    SELECT lei, legal_name, coalesce(legal_name_language, ''),
        legal_address_line, legal_address_city, coalesce(legal_address_region, ''),
        legal_address_country, coalesce(legal_address_postal_code, ''),
        headquarters_address_line, headquarters_address_city, coalesce(headquarters_address_region, ''),
        headquarters_address_country, coalesce(headquarters_address_postal_code, ''),
        authority, coalesce(authority_entity_id, ''), jurisdiction, category, legal_form,
        entity_status, pg_temp.printed(creation_date), coalesce(array_to_string(successors, ' '), ''),
        pg_temp.printed(initial_registration_date), pg_temp.printed(last_update_date), registration_status,
        pg_temp.printed(next_renewal_date), managing_lou, validation_sources, coalesce(transfer_to, ''),
        coalesce(event_type, ''), pg_temp.printed(event_effective_date), pg_temp.printed(event_recorded_date),
        coalesce(event_status, '')
    FROM leireg.lei ORDER BY lei COLLATE "C"
) TO STDOUT (FORMAT csv, FORCE_QUOTE *);

\o rr.csv
\qecho -n '"Relationship.StartNode","Relationship.RelationshipType","Relationship.EndNode",'
\qecho -n '"Relationship.RelationshipStatus","Relationship.StartDate","Relationship.EndDate",'
\qecho -n '"Registration.InitialRegistrationDate","Registration.LastUpdateDate",'
\qecho '"Registration.RegistrationStatus","Registration.ManagingLOU","Registration.ValidationSources"'
COPY (
    SELECT start_node, relationship_type, end_node, relationship_status,
        pg_temp.printed(start_date), pg_temp.printed(end_date),
        pg_temp.printed(initial_registration_date), pg_temp.printed(last_update_date), registration_status,
        managing_lou, validation_sources
    FROM leireg.rr ORDER BY start_node COLLATE "C", relationship_type COLLATE "C", end_node COLLATE "C"
) TO STDOUT (FORMAT csv, FORCE_QUOTE *);

\o repex.csv
\qecho '"LEI","ExceptionCategory","ExceptionReason","ExceptionReference"'
COPY (
    SELECT lei, category, reason, coalesce(reference, '')
    FROM leireg.repex ORDER BY lei COLLATE "C", category COLLATE "C"
) TO STDOUT (FORMAT csv, FORCE_QUOTE *);

\o
ROLLBACK;
