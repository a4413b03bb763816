# find_package(caladan): the targets caladan::caladan, the archive with its heap, and caladan::shared, the shared object where it
# is installed.
get_filename_component(caladan_libdir "${CMAKE_CURRENT_LIST_DIR}/../.." ABSOLUTE)
get_filename_component(caladan_includedir "${caladan_libdir}/@INCLUDE@" ABSOLUTE)

if(NOT TARGET caladan::caladan)
    add_library(caladan::caladan STATIC IMPORTED)
    set_target_properties(caladan::caladan PROPERTIES
        IMPORTED_LOCATION "${caladan_libdir}/libcaladan_c.a"
        INTERFACE_INCLUDE_DIRECTORIES "${caladan_includedir}"
        INTERFACE_LINK_LIBRARIES "${caladan_libdir}/liblibc_c.a")
    # Tables of rows, which call the archive: so it stands behind them once more.
    if(EXISTS "${caladan_libdir}/libcaladan_rows.a")
        set_property(TARGET caladan::caladan PROPERTY INTERFACE_LINK_LIBRARIES "${caladan_libdir}/libcaladan_rows.a"
            "${caladan_libdir}/libcaladan_c.a" "${caladan_libdir}/liblibc_c.a")
    endif()
endif()
if(NOT TARGET caladan::shared AND EXISTS "${caladan_libdir}/libcaladan_c.so")
    add_library(caladan::shared SHARED IMPORTED)
    set_target_properties(caladan::shared PROPERTIES
        IMPORTED_LOCATION "${caladan_libdir}/libcaladan_c.so"
        INTERFACE_INCLUDE_DIRECTORIES "${caladan_includedir}")
endif()
