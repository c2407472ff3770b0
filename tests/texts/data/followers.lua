-- What osm2pgsql keeps of a room, for tests/clients/replication: each element with all that a diff says of it.

local function about(columns)
    table.insert(columns, { column = 'tags', type = 'jsonb' })
    table.insert(columns, { column = 'version', type = 'int4' })
    table.insert(columns, { column = 'author', type = 'text' })
    return columns
end

local nodes = osm2pgsql.define_node_table('room_nodes', about({ { column = 'place', type = 'point', projection = 4326 } }))
local ways = osm2pgsql.define_way_table('room_ways', about({ { column = 'nodes', type = 'jsonb' } }))
local relations = osm2pgsql.define_relation_table('room_relations', about({ { column = 'members', type = 'jsonb' } }))

local function row(object, columns)
    columns.tags, columns.version, columns.author = object.tags, object.version, object.user
    return columns
end

function osm2pgsql.process_node(object)
    nodes:add_row(row(object, {}))
end

function osm2pgsql.process_way(object)
    ways:add_row(row(object, { nodes = object.nodes }))
end

function osm2pgsql.process_relation(object)
    relations:add_row(row(object, { members = object.members }))
end
