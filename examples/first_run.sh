#!/bin/sh
# Prints the lines of a first session: an issuer is accredited, sends an upload of one record, sends it again, and asks
# for the record. The record was registered as this year began and is to be renewed as the next one begins, so it is
# accepted on every day. A year may be given in the place of this one.
year=${1:-$(date -u +%Y)}
issuer=506700GE1G29325QX363
lei=00000000000000000195

upload() {
    printf 'UPLOAD %s 1 {"records":[{' $issuer
    printf '"Entity.EntityCategory":"GENERAL",'
    printf '"Entity.EntityCreationDate":"1998-03-02T00:00:00+01:00",'
    printf '"Entity.EntityStatus":"ACTIVE",'
    printf '"Entity.HeadquartersAddress.City":"Lyon",'
    printf '"Entity.HeadquartersAddress.Country":"FR",'
    printf '"Entity.HeadquartersAddress.FirstAddressLine":"3 rue de l'\''Arbre",'
    printf '"Entity.HeadquartersAddress.PostalCode":"69001",'
    printf '"Entity.LegalAddress.City":"Lyon",'
    printf '"Entity.LegalAddress.Country":"FR",'
    printf '"Entity.LegalAddress.FirstAddressLine":"3 rue de l'\''Arbre",'
    printf '"Entity.LegalAddress.PostalCode":"69001",'
    printf '"Entity.LegalAddress.Region":"FR-ARA",'
    printf '"Entity.LegalForm.EntityLegalFormCode":"AB12",'
    printf '"Entity.LegalJurisdiction":"FR",'
    printf '"Entity.LegalName":"Société \\"Bleue\\", S.A.",'
    printf '"Entity.LegalName.xmllang":"fr",'
    printf '"Entity.RegistrationAuthority.RegistrationAuthorityEntityID":"400000001",'
    printf '"Entity.RegistrationAuthority.RegistrationAuthorityID":"RA000001",'
    printf '"LEI":"%s",' $lei
    printf '"Registration.InitialRegistrationDate":"%s-01-01T01:00:00.250+01:00",' "$year"
    printf '"Registration.LastUpdateDate":"%s-01-01T01:00:00.250+01:00",' "$year"
    printf '"Registration.ManagingLOU":"%s",' $issuer
    printf '"Registration.NextRenewalDate":"%s-01-01T00:00:00Z",' $((year + 1))
    printf '"Registration.RegistrationStatus":"ISSUED",'
    printf '"Registration.ValidationSources":"FULLY_CORROBORATED"'
    printf '}]}\n'
}

echo "ACCREDIT $issuer"
upload
upload
echo "SHOW $lei"
