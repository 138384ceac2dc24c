# find_package(egrynnol) gives
#   egrynnol::egrynnol   the library; shared where libegrynnol.so is installed
#   egrynnol::static     libegrynnol.a
get_filename_component(_egrynnol_prefix "${CMAKE_CURRENT_LIST_DIR}/../../.." ABSOLUTE)

if(NOT TARGET egrynnol::static)
    add_library(egrynnol::static STATIC IMPORTED)
    set_target_properties(egrynnol::static PROPERTIES
        IMPORTED_LOCATION "${_egrynnol_prefix}/lib/libegrynnol.a"
        INTERFACE_INCLUDE_DIRECTORIES "${_egrynnol_prefix}/include")
endif()

if(NOT TARGET egrynnol::egrynnol)
    if(EXISTS "${_egrynnol_prefix}/lib/libegrynnol.so")
        add_library(egrynnol::egrynnol SHARED IMPORTED)
        set_target_properties(egrynnol::egrynnol PROPERTIES
            IMPORTED_LOCATION "${_egrynnol_prefix}/lib/libegrynnol.so"
            INTERFACE_INCLUDE_DIRECTORIES "${_egrynnol_prefix}/include")
    else()
        add_library(egrynnol::egrynnol INTERFACE IMPORTED)
        set_target_properties(egrynnol::egrynnol PROPERTIES INTERFACE_LINK_LIBRARIES egrynnol::static)
    endif()
endif()

unset(_egrynnol_prefix)
