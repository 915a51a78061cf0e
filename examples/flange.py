#!/usr/bin/env python3
"""Writes flange.stp beside this script: a square flange with a bore and twelve bolt holes, by AP214.

It is written as CAD programs write it: vertices and edges are shared by their faces, but each curve and surface has points,
directions and placements of its own, and each face a style of its own.
"""
import math
import os

SIDE, HEIGHT = 120.0, 12.0
BORE_RADIUS, BOLT_RADIUS, BOLT_CIRCLE_RADIUS, BOLTS = 30.0, 4.5, 46.0, 12
GREY, BLUE, BRASS = (0.6, 0.63, 0.65), (0.1, 0.25, 0.6), (0.71, 0.55, 0.22)
UP, ALONG_X = (0.0, 0.0, 1.0), (1.0, 0.0, 0.0)
HEADER = """ISO-10303-21;
HEADER;
FILE_DESCRIPTION(('A square flange with a bore and twelve bolt holes'),'2;1');
FILE_NAME('flange.stp','2026-11-30T12:00:00',(''),(''),'flange.py','','');
FILE_SCHEMA(('AUTOMOTIVE_DESIGN { 1 0 10303 214 1 1 1 1 }'));
ENDSEC;
DATA;
"""
FOOTER = "ENDSEC;\nEND-ISO-10303-21;\n"
INSTANCES, VERTICES, EDGES, STYLED_ITEMS = [], {}, {}, []


def spelt(value):
    """The text of a parameter: a number, an aggregate, or text as it is."""
    if isinstance(value, float):
        return f"{round(value, 6) + 0.0:.6f}".rstrip("0")
    return f"({','.join(map(spelt, value))})" if isinstance(value, (tuple, list)) else value


def add(keyword, *parameters):
    """Adds an instance of one entity, and returns its name."""
    return add_record(keyword + spelt(parameters))


def add_record(text):
    """Adds an instance, and returns its name."""
    INSTANCES.append(text)
    return f"#{len(INSTANCES)}"


def point(place):
    return add("CARTESIAN_POINT", "''", place)


def direction(ratios):
    return add("DIRECTION", "''", ratios)


def placement(place, axis, along):
    return add("AXIS2_PLACEMENT_3D", "''", point(place), direction(axis), direction(along))


def towards(start, end):
    """The unit vector from one place to another."""
    return tuple((b - a) / math.dist(start, end) for a, b in zip(start, end))


def vertex(place):
    if place not in VERTICES:
        VERTICES[place] = add("VERTEX_POINT", "''", point(place))
    return VERTICES[place]


def straight(start, end):
    """The oriented edge on the line between two places; both faces beside it share its edge."""
    if (end, start) in EDGES:
        return oriented(EDGES[end, start], ".F.")
    line = add("LINE", "''", point(start), add("VECTOR", "''", direction(towards(start, end)), 1.0))
    EDGES[start, end] = add("EDGE_CURVE", "''", vertex(start), vertex(end), line, ".T.")
    return oriented(EDGES[start, end], ".T.")


def circular(centre, radius):
    """The edge around a circle, counter-clockwise seen from above."""
    begin = vertex((centre[0] + radius, *centre[1:]))
    circle = add("CIRCLE", "''", placement(centre, UP, ALONG_X), radius)
    return add("EDGE_CURVE", "''", begin, begin, circle, ".T.")


def oriented(edge, sense):
    return add("ORIENTED_EDGE", "''", "*", "*", edge, sense)


def bound(keyword, edges):
    return add(keyword, "''", add("EDGE_LOOP", "''", edges), ".T.")


def face(bounds, surface, sense, colour):
    """Adds a face with its style, and returns its name."""
    found = add("ADVANCED_FACE", "''", bounds, surface, sense)
    fill = add("FILL_AREA_STYLE_COLOUR", "''", add("COLOUR_RGB", "''", *colour))
    area = add("SURFACE_STYLE_FILL_AREA", add("FILL_AREA_STYLE", "''", [fill]))
    usage = add("SURFACE_STYLE_USAGE", ".BOTH.", add("SURFACE_SIDE_STYLE", "''", [area]))
    STYLED_ITEMS.append(add("STYLED_ITEM", "'color'", [add("PRESENTATION_STYLE_ASSIGNMENT", [usage])], found))
    return found


def flat(corners, axis, holes, colour):
    """A plane face, whose corners are counter-clockwise seen from outside."""
    edges = [straight(a, b) for a, b in zip(corners, corners[1:] + corners[:1])]
    bounds = [bound("FACE_OUTER_BOUND", edges), *(bound("FACE_BOUND", [it]) for it in holes)]
    plane = add("PLANE", "''", placement(corners[0], axis, towards(*corners[:2])))
    return face(bounds, plane, ".T.", colour)


def hole(centre, radius, colour):
    """A cylindrical face, and the oriented edges that bound it at the bottom and at the top of the flange."""
    (x, y), bottom, top = centre, (*centre, 0.0), (*centre, HEIGHT)
    low, high = circular(bottom, radius), circular(top, radius)
    up, down = (x + radius, y, 0.0), (x + radius, y, HEIGHT)
    edges = [oriented(high, ".T."), straight(down, up), oriented(low, ".F."), straight(up, down)]
    surface = add("CYLINDRICAL_SURFACE", "''", placement(bottom, UP, ALONG_X), radius)
    return face([bound("FACE_OUTER_BOUND", edges)], surface, ".F.", colour), oriented(low, ".T."), oriented(high, ".F.")


def shell():
    """The faces of the flange: holes, bottom, top and sides."""
    angles = [2 * math.pi * k / BOLTS for k in range(BOLTS)]
    centres = [tuple(round(BOLT_CIRCLE_RADIUS * f(it), 6) for f in (math.cos, math.sin)) for it in angles]
    holes = [hole((0.0, 0.0), BORE_RADIUS, BLUE), *(hole(it, BOLT_RADIUS, BRASS) for it in centres)]
    half = SIDE / 2
    low = [(-half, -half, 0.0), (half, -half, 0.0), (half, half, 0.0), (-half, half, 0.0)]
    high = [(x, y, HEIGHT) for x, y, _ in low]
    faces = [it[0] for it in holes]
    faces.append(flat(low[::-1], (0.0, 0.0, -1.0), [it[1] for it in holes], GREY))
    faces.append(flat(high, UP, [it[2] for it in holes], GREY))
    for k, outwards in enumerate([(0.0, -1.0, 0.0), ALONG_X, (0.0, 1.0, 0.0), (-1.0, 0.0, 0.0)]):
        faces.append(flat([low[k], low[(k + 1) % 4], high[(k + 1) % 4], high[k]], outwards, [], GREY))
    return faces


def product():
    """Adds the product and its shape, and returns the name of the shape."""
    application = add("APPLICATION_CONTEXT", "'core data for automotive mechanical design processes'")
    add("APPLICATION_PROTOCOL_DEFINITION", "'international standard'", "'automotive_design'", "2000", application)
    it = add("PRODUCT", "'flange'", "'Flange'", "''", [add("PRODUCT_CONTEXT", "''", application, "'mechanical'")])
    add("PRODUCT_RELATED_PRODUCT_CATEGORY", "'part'", "$", [it])
    stage = add("PRODUCT_DEFINITION_CONTEXT", "'part definition'", application, "'design'")
    version = add("PRODUCT_DEFINITION_FORMATION", "''", "''", it)
    return add("PRODUCT_DEFINITION_SHAPE", "''", "''", add("PRODUCT_DEFINITION", "'design'", "''", version, stage))


def context():
    """Adds millimetres, radians and steradians, and returns the name of the context that has them."""
    length = add_record("(LENGTH_UNIT()NAMED_UNIT(*)SI_UNIT(.MILLI.,.METRE.))")
    angle = add_record("(NAMED_UNIT(*)PLANE_ANGLE_UNIT()SI_UNIT($,.RADIAN.))")
    solid = add_record("(NAMED_UNIT(*)SI_UNIT($,.STERADIAN.)SOLID_ANGLE_UNIT())")
    accuracy = add("UNCERTAINTY_MEASURE_WITH_UNIT", "LENGTH_MEASURE(1.E-07)", length, "'distance_accuracy_value'", "'confusion accuracy'")
    return add_record(f"(GEOMETRIC_REPRESENTATION_CONTEXT(3)GLOBAL_UNCERTAINTY_ASSIGNED_CONTEXT(({accuracy}))"
                      f"GLOBAL_UNIT_ASSIGNED_CONTEXT(({length},{angle},{solid}))REPRESENTATION_CONTEXT('','3D'))")


def main():
    shape, units = product(), context()
    origin = placement((0.0, 0.0, 0.0), UP, ALONG_X)
    solid = add("MANIFOLD_SOLID_BREP", "'Flange'", add("CLOSED_SHELL", "''", shell()))
    add("SHAPE_DEFINITION_REPRESENTATION", shape, add("ADVANCED_BREP_SHAPE_REPRESENTATION", "''", [origin, solid], units))
    add("MECHANICAL_DESIGN_GEOMETRIC_PRESENTATION_REPRESENTATION", "''", STYLED_ITEMS, units)
    with open(os.path.join(os.path.dirname(os.path.abspath(__file__)), "flange.stp"), "w", encoding="ascii") as file:
        file.writelines([HEADER, *(f"#{name}={it};\n" for name, it in enumerate(INSTANCES, 1)), FOOTER])


if __name__ == "__main__":
    main()
