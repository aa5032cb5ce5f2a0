"""A picture of a mesh as PNG. A triangle seen from its right side is grey, from its wrong side red."""
import math
import struct
import zlib

GREY, RED, BACKGROUND = (216, 212, 200), (220, 40, 30), bytes((24, 28, 36))
LIGHT = (-0.36, 0.48, 0.8)


def turned(point, azimuth=0.6, elevation=0.5):
    """Right, up and towards the eye, for an eye in front of y = 0, to the left and above."""
    x, y, z = point
    right = x * math.cos(azimuth) - y * math.sin(azimuth)
    away = x * math.sin(azimuth) + y * math.cos(azimuth)
    return (right, z * math.cos(elevation) + away * math.sin(elevation),
            z * math.sin(elevation) - away * math.cos(elevation))


def fitted(points, side):
    """The points turned to the eye, right and down in pixels."""
    if not points:
        return []
    points = [turned(point) for point in points]
    low, high = ([bound(part) for part in zip(*points)] for bound in (min, max))
    scale = 0.92 * side / max(b - a for a, b in zip(low[:2], high[:2]))
    middle = [(a + b) / 2 for a, b in zip(low, high)]
    return [(side / 2 + (x - middle[0]) * scale, side / 2 - (y - middle[1]) * scale, (z - middle[2]) * scale)
            for x, y, z in points]


def colour(a, b, c):
    """Plain shading by the angle to the light, from the normal on the side of the eye."""
    u, v = ([q - p for p, q in zip(a, other)] for other in (b, c))
    normal = (u[1] * v[2] - u[2] * v[1], u[2] * v[0] - u[0] * v[2], u[0] * v[1] - u[1] * v[0])
    length = math.sqrt(sum(part * part for part in normal))
    if length == 0:
        return None
    right = normal[2] < 0
    normal = [part / length * (1 if normal[2] > 0 else -1) for part in normal]
    lit = max(0.0, normal[0] * LIGHT[0] - normal[1] * LIGHT[1] + normal[2] * LIGHT[2])
    return bytes(int(part * (0.25 + 0.75 * lit)) for part in (GREY if right else RED))


def paint(pixels, depths, side, corners):
    """Paints a triangle where it is nearer than what is there."""
    (ax, ay, az), (bx, by, bz), (cx, cy, cz) = corners
    area = (bx - ax) * (cy - ay) - (by - ay) * (cx - ax)
    shade = colour(*corners) if area else None
    if shade is None:
        return
    rows = range(max(0, math.ceil(min(ay, by, cy))), min(side - 1, math.floor(max(ay, by, cy))) + 1)
    columns = range(max(0, math.ceil(min(ax, bx, cx))), min(side - 1, math.floor(max(ax, bx, cx))) + 1)
    for y in rows:
        for x in columns:
            s = ((x - ax) * (cy - ay) - (y - ay) * (cx - ax)) / area
            t = ((bx - ax) * (y - ay) - (by - ay) * (x - ax)) / area
            if s >= 0 and t >= 0 and s + t <= 1:
                depth, place = az + s * (bz - az) + t * (cz - az), y * side + x
                if depth > depths[place]:
                    depths[place] = depth
                    pixels[3 * place:3 * place + 3] = shade


def chunk(kind, data):
    return struct.pack(">I", len(data)) + kind + data + struct.pack(">I", zlib.crc32(kind + data))


def write_png(file, points, triangles, side=720):
    pixels, depths = bytearray(BACKGROUND * side * side), [-math.inf] * (side * side)
    points = fitted(points, side)
    for triangle in triangles:
        paint(pixels, depths, side, [points[vertex] for vertex in triangle])
    rows = b"".join(b"\0" + pixels[3 * side * y:3 * side * (y + 1)] for y in range(side))
    file.write(b"\x89PNG\r\n\x1a\n" + chunk(b"IHDR", struct.pack(">IIBBBBB", side, side, 8, 2, 0, 0, 0))
               + chunk(b"IDAT", zlib.compress(rows)) + chunk(b"IEND", b""))
