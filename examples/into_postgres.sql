-- The schema that examples/into_postgres makes. The comment of a column is the name of its field in docs/FORMATS.md.
-- An absent field is NULL.
--
-- Entities by words of their names, by way of the index lei_words. Letters are folded as the locale of the database
-- says, so the words aren't always those of `leireg search`:
--
--   SELECT lei, legal_name FROM leireg.lei
--   WHERE to_tsvector('simple', legal_name) @@ plainto_tsquery('simple', 'nordhavn holding') ORDER BY lei;
--
-- The columns with values of a list are text without a CHECK, so that a value that a later register adds can be loaded.
-- There are no foreign keys: a relationship may end at an entity that the register doesn't have.

CREATE SCHEMA leireg;

CREATE DOMAIN leireg.code AS text COLLATE "C" CHECK (VALUE ~ '^[0-9A-Z]{18}[0-9]{2}$');

CREATE TABLE leireg.publication (
    one boolean PRIMARY KEY DEFAULT true CHECK (one),
    number integer NOT NULL,
    content_date timestamptz NOT NULL
);
COMMENT ON TABLE leireg.publication IS 'the publication that the other tables have, in one row';

CREATE TABLE leireg.lei (
    lei leireg.code PRIMARY KEY,
    legal_name text NOT NULL,
    legal_name_language text,
    legal_address_line text NOT NULL,
    legal_address_city text NOT NULL,
    legal_address_region text,
    legal_address_country text NOT NULL,
    legal_address_postal_code text,
    headquarters_address_line text NOT NULL,
    headquarters_address_city text NOT NULL,
    headquarters_address_region text,
    headquarters_address_country text NOT NULL,
    headquarters_address_postal_code text,
    authority text NOT NULL,
    authority_entity_id text,
    jurisdiction text NOT NULL,
    category text NOT NULL,
    legal_form text NOT NULL,
    entity_status text NOT NULL,
    creation_date timestamptz,
    successors leireg.code[],
    initial_registration_date timestamptz NOT NULL,
    last_update_date timestamptz NOT NULL,
    registration_status text NOT NULL,
    next_renewal_date timestamptz NOT NULL,
    managing_lou leireg.code NOT NULL,
    validation_sources text NOT NULL,
    transfer_to leireg.code,
    event_type text,
    event_effective_date timestamptz,
    event_recorded_date timestamptz,
    event_status text
);
CREATE INDEX lei_words ON leireg.lei USING gin (to_tsvector('simple', legal_name));
COMMENT ON TABLE leireg.lei IS 'the records of entities';
COMMENT ON COLUMN leireg.lei.lei IS 'LEI';
COMMENT ON COLUMN leireg.lei.legal_name IS 'Entity.LegalName';
COMMENT ON COLUMN leireg.lei.legal_name_language IS 'Entity.LegalName.xmllang';
COMMENT ON COLUMN leireg.lei.legal_address_line IS 'Entity.LegalAddress.FirstAddressLine';
COMMENT ON COLUMN leireg.lei.legal_address_city IS 'Entity.LegalAddress.City';
COMMENT ON COLUMN leireg.lei.legal_address_region IS 'Entity.LegalAddress.Region';
COMMENT ON COLUMN leireg.lei.legal_address_country IS 'Entity.LegalAddress.Country';
COMMENT ON COLUMN leireg.lei.legal_address_postal_code IS 'Entity.LegalAddress.PostalCode';
COMMENT ON COLUMN leireg.lei.headquarters_address_line IS 'Entity.HeadquartersAddress.FirstAddressLine';
COMMENT ON COLUMN leireg.lei.headquarters_address_city IS 'Entity.HeadquartersAddress.City';
COMMENT ON COLUMN leireg.lei.headquarters_address_region IS 'Entity.HeadquartersAddress.Region';
COMMENT ON COLUMN leireg.lei.headquarters_address_country IS 'Entity.HeadquartersAddress.Country';
COMMENT ON COLUMN leireg.lei.headquarters_address_postal_code IS 'Entity.HeadquartersAddress.PostalCode';
COMMENT ON COLUMN leireg.lei.authority IS 'Entity.RegistrationAuthority.RegistrationAuthorityID';
COMMENT ON COLUMN leireg.lei.authority_entity_id IS 'Entity.RegistrationAuthority.RegistrationAuthorityEntityID';
COMMENT ON COLUMN leireg.lei.jurisdiction IS 'Entity.LegalJurisdiction';
COMMENT ON COLUMN leireg.lei.category IS 'Entity.EntityCategory';
COMMENT ON COLUMN leireg.lei.legal_form IS 'Entity.LegalForm.EntityLegalFormCode';
COMMENT ON COLUMN leireg.lei.entity_status IS 'Entity.EntityStatus';
COMMENT ON COLUMN leireg.lei.creation_date IS 'Entity.EntityCreationDate';
COMMENT ON COLUMN leireg.lei.successors IS 'Entity.SuccessorEntity.1.SuccessorLEI';
COMMENT ON COLUMN leireg.lei.initial_registration_date IS 'Registration.InitialRegistrationDate';
COMMENT ON COLUMN leireg.lei.last_update_date IS 'Registration.LastUpdateDate';
COMMENT ON COLUMN leireg.lei.registration_status IS 'Registration.RegistrationStatus';
COMMENT ON COLUMN leireg.lei.next_renewal_date IS 'Registration.NextRenewalDate';
COMMENT ON COLUMN leireg.lei.managing_lou IS 'Registration.ManagingLOU';
COMMENT ON COLUMN leireg.lei.validation_sources IS 'Registration.ValidationSources';
COMMENT ON COLUMN leireg.lei.transfer_to IS 'Register.TransferTo';
COMMENT ON COLUMN leireg.lei.event_type IS 'Entity.Event.1.Type';
COMMENT ON COLUMN leireg.lei.event_effective_date IS 'Entity.Event.1.EffectiveDate';
COMMENT ON COLUMN leireg.lei.event_recorded_date IS 'Entity.Event.1.RecordedDate';
COMMENT ON COLUMN leireg.lei.event_status IS 'Entity.Event.1.Status';

CREATE TABLE leireg.rr (
    start_node leireg.code,
    relationship_type text COLLATE "C",
    end_node leireg.code,
    relationship_status text NOT NULL,
    start_date timestamptz NOT NULL,
    end_date timestamptz,
    initial_registration_date timestamptz NOT NULL,
    last_update_date timestamptz NOT NULL,
    registration_status text NOT NULL,
    managing_lou leireg.code NOT NULL,
    validation_sources text NOT NULL,
    PRIMARY KEY (start_node, relationship_type, end_node)
);
CREATE INDEX rr_end_node ON leireg.rr (end_node);
COMMENT ON TABLE leireg.rr IS 'the relationships between entities, without those that were annulled';
COMMENT ON COLUMN leireg.rr.start_node IS 'Relationship.StartNode';
COMMENT ON COLUMN leireg.rr.relationship_type IS 'Relationship.RelationshipType';
COMMENT ON COLUMN leireg.rr.end_node IS 'Relationship.EndNode';
COMMENT ON COLUMN leireg.rr.relationship_status IS 'Relationship.RelationshipStatus';
COMMENT ON COLUMN leireg.rr.start_date IS 'Relationship.StartDate';
COMMENT ON COLUMN leireg.rr.end_date IS 'Relationship.EndDate';
COMMENT ON COLUMN leireg.rr.initial_registration_date IS 'Registration.InitialRegistrationDate';
COMMENT ON COLUMN leireg.rr.last_update_date IS 'Registration.LastUpdateDate';
COMMENT ON COLUMN leireg.rr.registration_status IS 'Registration.RegistrationStatus';
COMMENT ON COLUMN leireg.rr.managing_lou IS 'Registration.ManagingLOU';
COMMENT ON COLUMN leireg.rr.validation_sources IS 'Registration.ValidationSources';

CREATE TABLE leireg.repex (
    lei leireg.code,
    category text COLLATE "C",
    reason text NOT NULL,
    reference text,
    PRIMARY KEY (lei, category)
);
COMMENT ON TABLE leireg.repex IS 'the reasons for which entities report no parent';
COMMENT ON COLUMN leireg.repex.lei IS 'LEI';
COMMENT ON COLUMN leireg.repex.category IS 'ExceptionCategory';
COMMENT ON COLUMN leireg.repex.reason IS 'ExceptionReason';
COMMENT ON COLUMN leireg.repex.reference IS 'ExceptionReference';
