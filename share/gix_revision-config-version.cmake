# Says whether this version fits the one that find_package needs: the soname is the same, which ends
# with the first number of the version, or the first two while the first is 0, and this version is
# not an earlier one.
set(PACKAGE_VERSION "@VERSION@")
string(REGEX MATCH "^(0\\.)?[0-9]+" _gix_revision_this "${PACKAGE_VERSION}")
string(REGEX MATCH "^(0\\.)?[0-9]+" _gix_revision_wanted "${PACKAGE_FIND_VERSION}")
if(PACKAGE_FIND_VERSION AND NOT _gix_revision_wanted STREQUAL _gix_revision_this)
    set(PACKAGE_VERSION_COMPATIBLE FALSE)
elseif(PACKAGE_VERSION VERSION_LESS PACKAGE_FIND_VERSION)
    set(PACKAGE_VERSION_COMPATIBLE FALSE)
else()
    set(PACKAGE_VERSION_COMPATIBLE TRUE)
    if(PACKAGE_VERSION VERSION_EQUAL PACKAGE_FIND_VERSION)
        set(PACKAGE_VERSION_EXACT TRUE)
    endif()
endif()
unset(_gix_revision_this)
unset(_gix_revision_wanted)
